with Ada.Real_Time; use Ada.Real_Time;
procedure Main is
   T : Time := Clock;
begin
   delay until T + Milliseconds (5);
end Main;
