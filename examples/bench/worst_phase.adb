package Device is
   protected Receiver with Interrupt_Priority => 31 is
      procedure Arrived with Attach_Handler => 3;
      entry Wait;
   private
      Open : Boolean := False;
   end Receiver;
end Device;

package body Device is
   protected body Receiver is
      procedure Arrived is
      begin
         Open := True;
      end Arrived;

      entry Wait when Open is
      begin
         Open := False;
      end Wait;
   end Receiver;
end Device;

with Ada.Real_Time; use Ada.Real_Time;
with Device;
procedure Main is
   Turns : constant Integer := 8;

   protected Shared with Priority => 20 is
      procedure Work;
   end Shared;

   task Urgent with Priority => 20;
   task Steady with Priority => 5;

   protected body Shared is
      procedure Work is
      begin
         for Turn in 1 .. Turns loop
            null;
         end loop;
      end Work;
   end Shared;

   task body Urgent is
   begin
      loop
         Device.Receiver.Wait;
         null;
      end loop;
   end Urgent;

   task body Steady is
      Next : Time := Time_First + Microseconds (100);
   begin
      for Job in 1 .. 4 loop
         delay until Next;
         Shared.Work;
         Next := Next + Microseconds (100);
      end loop;
   end Steady;
begin
   null;
end Main;
