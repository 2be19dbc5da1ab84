with Ada.Real_Time.Timing_Events; use Ada.Real_Time.Timing_Events;
package Watch is
   Dog : Timing_Event;

   protected Alarm with Interrupt_Priority => 31 is
      procedure Bark (Event : in out Timing_Event);
      entry Wait;
   private
      Barked : Boolean := False;
   end Alarm;
end Watch;

package body Watch is
   protected body Alarm is
      procedure Bark (Event : in out Timing_Event) is
      begin
         Barked := True;
      end Bark;

      entry Wait when Barked is
      begin
         Barked := False;
      end Wait;
   end Alarm;
end Watch;

with Ada.Real_Time; use Ada.Real_Time;
with Ada.Real_Time.Timing_Events; use Ada.Real_Time.Timing_Events;
with Ada.Text_IO; use Ada.Text_IO;
with Watch;
procedure Main is
begin
   for Turn in 1 .. 3 loop
      Set_Handler (Watch.Dog, Microseconds (30), Watch.Alarm.Bark'Access);
      delay 0.000020;
   end loop;
   Put_Line ("three in time");
   Watch.Alarm.Wait;
   Put_Line ("too late");
end Main;
