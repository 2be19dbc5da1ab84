with Ada.Real_Time.Timing_Events; use Ada.Real_Time.Timing_Events;
package Events is
   Alarm : Timing_Event;
end Events;
with Ada.Real_Time.Timing_Events; use Ada.Real_Time.Timing_Events;
with Events;
procedure Main is
   Was_Set : Boolean;
begin
   Cancel_Handler (Events.Alarm, Was_Set);
end Main;
