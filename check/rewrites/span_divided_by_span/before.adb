with Ada.Real_Time; use Ada.Real_Time;
procedure Main is
   N : Integer;
begin
   N := Seconds (1) / Milliseconds (10);
end Main;
