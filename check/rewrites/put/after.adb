with Ada.Text_IO; use Ada.Text_IO;
procedure Main is
begin
   Put_Line ("the answer is" & Integer'Image (42));
end Main;
