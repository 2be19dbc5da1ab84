with Ada.Execution_Time.Group_Budgets; use Ada.Execution_Time.Group_Budgets;
package Server is
   task Guest with Priority => 15;
   task Control with Priority => 20;
   task Other with Priority => 10;

   Budget : Group_Budget;
   protected Guard with Interrupt_Priority => 31 is
      procedure Demote (GB : in out Group_Budget);
   end Guard;
end Server;

with Ada.Dynamic_Priorities; use Ada.Dynamic_Priorities;
with Ada.Real_Time; use Ada.Real_Time;
package body Server is
   Period : constant Time_Span := Microseconds (200);
   Turns  : constant Integer := 30;

   procedure Work (Turns : in Positive) is
   begin
      for Turn in 1 .. Turns loop
         null;
      end loop;
   end Work;

   protected body Guard is
      procedure Demote (GB : in out Group_Budget) is
      begin
         Set_Priority (5, Guest'Identity);
      end Demote;
   end Guard;

   task body Guest is
      Next : Time := Time_First + Microseconds (200);
   begin
      for Job in 1 .. 4 loop
         delay until Next;
         Work (Turns);
         Next := Next + Period;
      end loop;
   end Guest;

   task body Control is
      Next : Time := Time_First + Microseconds (200);
   begin
      Add_Task (Budget, Guest'Identity);
      Set_Handler (Budget, Guard.Demote'Access);
      for Job in 1 .. 4 loop
         delay until Next;
         Set_Priority (15, Guest'Identity);
         Replenish (Budget, Microseconds (40));
         Next := Next + Period;
      end loop;
   end Control;

   task body Other is
      Next : Time := Time_First + Microseconds (200);
   begin
      for Job in 1 .. 4 loop
         delay until Next;
         Work (30);
         Next := Next + Period;
      end loop;
   end Other;
end Server;

with Server;
procedure Main is
begin
   null;
end Main;
