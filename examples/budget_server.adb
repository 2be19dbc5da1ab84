with Ada.Execution_Time.Group_Budgets; use Ada.Execution_Time.Group_Budgets;
package Server is
   task type Member with Priority => 15;
   First, Second : Member;
   task Control with Priority => 20;
   task Other with Priority => 10;

   Budget : Group_Budget;
   protected Guard with Interrupt_Priority => 31 is
      procedure Demote (GB : in out Group_Budget);
   end Guard;
end Server;

with Ada.Dynamic_Priorities; use Ada.Dynamic_Priorities;
with Ada.Real_Time; use Ada.Real_Time;
with Ada.Text_IO; use Ada.Text_IO;
package body Server is
   protected body Guard is
      procedure Demote (GB : in out Group_Budget) is
      begin
         Set_Priority (5, First'Identity);
         Set_Priority (5, Second'Identity);
      end Demote;
   end Guard;

   task body Member is
   begin
      for Turn in 1 .. 16 loop
         null;
      end loop;
      Put_Line ("member");
   end Member;

   task body Control is
   begin
      Add_Task (Budget, First'Identity);
      Add_Task (Budget, Second'Identity);
      Set_Handler (Budget, Guard.Demote'Access);
      Replenish (Budget, Microseconds (50));
      delay until Time_First + Microseconds (120);
      Set_Priority (15, First'Identity);
      Set_Priority (15, Second'Identity);
      Replenish (Budget, Microseconds (50));
   end Control;

   task body Other is
   begin
      for Turn in 1 .. 30 loop
         null;
      end loop;
      Put_Line ("other");
   end Other;
end Server;

with Server;
procedure Main is
begin
   null;
end Main;
