with Ada.Text_IO; use Ada.Text_IO;
procedure Main is
   D : Duration := 0.5;
begin
   Put_Line (Duration'Image (D));
end Main;
