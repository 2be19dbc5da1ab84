with Ada.Real_Time; use Ada.Real_Time;
with Ada.Execution_Time; use Ada.Execution_Time;
procedure Main is
   T : Time;
begin
   T := Clock;
end Main;
