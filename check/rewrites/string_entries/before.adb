with Ada.Text_IO; use Ada.Text_IO;
procedure Main is
   task Printer is
      entry Print (Text : in String);
   end Printer;
   task body Printer is
   begin
      accept Print (Text : in String) do
         Put_Line (Text);
      end Print;
   end Printer;
begin
   Printer.Print ("hello");
end Main;
