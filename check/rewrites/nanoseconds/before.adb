with Ada.Real_Time; use Ada.Real_Time;
procedure Main is
begin
   delay until Clock + Nanoseconds (5000);
end Main;
