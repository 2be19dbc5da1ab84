with Ada.Text_IO; use Ada.Text_IO;
procedure Main is
   Message : String := "ready";
begin
   Put_Line (Message);
end Main;
