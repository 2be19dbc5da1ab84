with Ada.Real_Time; use Ada.Real_Time;
procedure Main is
begin
   delay until Clock + 0.005;
end Main;
