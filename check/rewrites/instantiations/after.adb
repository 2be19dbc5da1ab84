with Ada.Text_IO; use Ada.Text_IO;
procedure Main is
begin
   Put_Line (Integer'Image (5));
end Main;
