with Ada.Text_IO; use Ada.Text_IO;
procedure Main is
begin
   Put_Line ("one");
   Put_Line ("");
   Put_Line ("two");
end Main;
