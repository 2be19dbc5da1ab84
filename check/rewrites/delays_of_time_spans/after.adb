with Ada.Real_Time; use Ada.Real_Time;
procedure Main is
begin
   delay To_Duration (Milliseconds (5));
end Main;
