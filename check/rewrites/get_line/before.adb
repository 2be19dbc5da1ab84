with Ada.Text_IO; use Ada.Text_IO;
procedure Main is
begin
   Skip_Line;
   Put_Line ("go");
end Main;
