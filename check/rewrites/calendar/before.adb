with Ada.Calendar; use Ada.Calendar;
procedure Main is
   T : Time := Clock;
begin
   delay until T + 0.005;
end Main;
