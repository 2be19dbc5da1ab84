with Ada.Real_Time; use Ada.Real_Time;
with Ada.Real_Time.Timing_Events; use Ada.Real_Time.Timing_Events;
package Events is
   Alarm : Timing_Event;
   protected Dog with Interrupt_Priority => 31 is
      procedure Bark (Event : in out Timing_Event);
   end Dog;
end Events;
package body Events is
   protected body Dog is
      procedure Bark (Event : in out Timing_Event) is
      begin
         null;
      end Bark;
   end Dog;
end Events;
with Ada.Real_Time; use Ada.Real_Time;
with Ada.Real_Time.Timing_Events; use Ada.Real_Time.Timing_Events;
with Events;
procedure Main is
begin
   Set_Handler (Events.Alarm, Milliseconds (5), Events.Dog.Bark'Access);
end Main;
