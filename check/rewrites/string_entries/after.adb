with Ada.Text_IO; use Ada.Text_IO;
procedure Main is
   type Message is (Hello, Goodbye);
   task Printer is
      entry Print (Text : in Message);
   end Printer;
   task body Printer is
   begin
      accept Print (Text : in Message) do
         Put_Line (Message'Image (Text));
      end Print;
   end Printer;
begin
   Printer.Print (Hello);
end Main;
