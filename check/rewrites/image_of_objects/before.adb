with Ada.Text_IO; use Ada.Text_IO;
procedure Main is
   X : Integer := 5;
begin
   Put_Line (X'Image);
end Main;
