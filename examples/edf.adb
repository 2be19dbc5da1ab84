pragma Priority_Specific_Dispatching (EDF_Across_Priorities, 1, 10);
package Jobs is
   task Often with Priority => 5;
   task Seldom with Priority => 5;
end Jobs;

with Ada.Dispatching.EDF; use Ada.Dispatching.EDF;
with Ada.Real_Time; use Ada.Real_Time;
with Ada.Text_IO; use Ada.Text_IO;
package body Jobs is
   procedure Work (Turns : in Positive) is
   begin
      for Turn in 1 .. Turns loop
         null;
      end loop;
   end Work;

   task body Often is
      Next : Time := Time_First + Microseconds (50);
   begin
      for Job in 1 .. 3 loop
         Delay_Until_And_Set_Deadline (Next, Microseconds (50));
         Work (5);
         Put_Line ("often");
         Next := Next + Microseconds (50);
      end loop;
   end Often;

   task body Seldom is
      Next : Time := Time_First + Microseconds (50);
   begin
      for Job in 1 .. 2 loop
         Delay_Until_And_Set_Deadline (Next, Microseconds (90));
         Work (15);
         Put_Line ("seldom");
         Next := Next + Microseconds (90);
      end loop;
   end Seldom;
end Jobs;

with Jobs;
procedure Main is
begin
   null;
end Main;
