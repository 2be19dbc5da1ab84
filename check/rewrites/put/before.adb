with Ada.Text_IO; use Ada.Text_IO;
procedure Main is
begin
   Put ("the answer is");
   Put_Line (Integer'Image (42));
end Main;
