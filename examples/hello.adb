with Ada.Text_IO; use Ada.Text_IO;
procedure Main is
begin
   null;
   Put_Line ("hi");
end Main;
