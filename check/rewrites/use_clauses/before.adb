with Ada.Real_Time;
with Ada.Text_IO;
procedure Main is
   use Ada.Real_Time, Ada.Text_IO;
   T : Time := Clock;
begin
   Put_Line ("hi");
end Main;
