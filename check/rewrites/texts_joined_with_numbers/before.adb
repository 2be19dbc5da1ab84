with Ada.Text_IO; use Ada.Text_IO;
procedure Main is
   X : Integer := 5;
begin
   Put_Line ("x =" & X);
end Main;
