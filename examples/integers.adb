with Ada.Text_IO; use Ada.Text_IO;
procedure Main is
   First, Second : Integer := 5;
   Count         : Integer;
begin
   Put_Line ("declared");
   Count := First;
   Second := Count;
   Put_Line ("copied");
end Main;
