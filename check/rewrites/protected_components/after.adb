with Ada.Real_Time.Timing_Events; use Ada.Real_Time.Timing_Events;
package Dogs is
   Alarm : Timing_Event;
   protected Dog with Interrupt_Priority => 31 is
      procedure Bark (Event : in out Timing_Event);
   end Dog;
end Dogs;
package body Dogs is
   protected body Dog is
      procedure Bark (Event : in out Timing_Event) is
      begin
         null;
      end Bark;
   end Dog;
end Dogs;
procedure Main is
begin
   null;
end Main;
