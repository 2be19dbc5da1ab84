with Ada.Text_IO; use Ada.Text_IO;
procedure Main is
begin
   Put_Line ("one");
   New_Line;
   Put_Line ("two");
end Main;
