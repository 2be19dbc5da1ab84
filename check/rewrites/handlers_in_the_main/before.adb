with Ada.Real_Time; use Ada.Real_Time;
with Ada.Real_Time.Timing_Events; use Ada.Real_Time.Timing_Events;
package Events is
   Alarm : Timing_Event;
end Events;
with Ada.Real_Time; use Ada.Real_Time;
with Ada.Real_Time.Timing_Events; use Ada.Real_Time.Timing_Events;
with Events;
procedure Main is
   protected Dog with Interrupt_Priority => 31 is
      procedure Bark (Event : in out Timing_Event);
   end Dog;
   protected body Dog is
      procedure Bark (Event : in out Timing_Event) is
      begin
         null;
      end Bark;
   end Dog;
begin
   Set_Handler (Events.Alarm, Milliseconds (5), Dog.Bark'Access);
end Main;
