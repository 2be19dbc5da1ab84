with Ada.Real_Time; use Ada.Real_Time;
procedure Main is
begin
   delay Milliseconds (5);
end Main;
