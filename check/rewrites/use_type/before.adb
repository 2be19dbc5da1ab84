with Ada.Real_Time;
procedure Main is
   use type Ada.Real_Time.Time;
   T : Ada.Real_Time.Time := Ada.Real_Time.Clock;
begin
   T := T + Ada.Real_Time.Milliseconds (5);
end Main;
