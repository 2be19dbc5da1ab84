with Ada.Real_Time.Timing_Events; use Ada.Real_Time.Timing_Events;
procedure Main is
   Alarm : Timing_Event;
   Was_Set : Boolean;
begin
   Cancel_Handler (Alarm, Was_Set);
end Main;
