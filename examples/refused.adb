with Ada.Text_IO; use Ada.Text_IO;
procedure Main is
   Total : Integer := 10;
   Copy  : Integer;
begin
   Copy := Totl;
   Put_Line ("copied");
end Main;
