with Ada.Execution_Time.Timers; use Ada.Execution_Time.Timers;
with Ada.Task_Identification; use Ada.Task_Identification;
package Jobs is
   task Greedy with Priority => 20;
   task Modest with Priority => 10;

   Greedy_Id : aliased constant Task_Id := Greedy'Identity;
   Watch     : Timer (Greedy_Id'Access);

   protected Guard with Interrupt_Priority => 31 is
      procedure Demote (TM : in out Timer);
   end Guard;
end Jobs;

with Ada.Dynamic_Priorities; use Ada.Dynamic_Priorities;
with Ada.Real_Time; use Ada.Real_Time;
with Ada.Text_IO; use Ada.Text_IO;
package body Jobs is
   procedure Work (Turns : in Positive) is
   begin
      for Turn in 1 .. Turns loop
         null;
      end loop;
   end Work;

   protected body Guard is
      procedure Demote (TM : in out Timer) is
      begin
         Set_Priority (5, Greedy_Id);
      end Demote;
   end Guard;

   task body Greedy is
   begin
      Set_Handler (Watch, Microseconds (30), Guard.Demote'Access);
      Work (30);
      Put_Line ("greedy");
   end Greedy;

   task body Modest is
   begin
      delay 0.000010;
      Work (5);
      Put_Line ("modest");
   end Modest;
end Jobs;

with Jobs;
procedure Main is
begin
   null;
end Main;
