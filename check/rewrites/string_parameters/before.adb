with Ada.Text_IO; use Ada.Text_IO;
procedure Main is
   procedure Say (Text : in String) is
   begin
      Put_Line (Text);
   end Say;
begin
   Say ("hello");
end Main;
