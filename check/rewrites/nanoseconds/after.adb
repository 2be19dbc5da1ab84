with Ada.Real_Time; use Ada.Real_Time;
procedure Main is
begin
   delay until Clock + Microseconds (5);
end Main;
