with Ada.Real_Time; use Ada.Real_Time;
with Ada.Text_IO; use Ada.Text_IO;
procedure Main is
   task Drifting with Priority => 10;
   task Steady with Priority => 12;

   task body Drifting is
   begin
      for Turn in 1 .. 4 loop
         delay 0.000100;
         Put_Line ("drifting");
      end loop;
   end Drifting;

   task body Steady is
      Next : Time := Time_First;
   begin
      for Turn in 1 .. 4 loop
         Next := Next + Microseconds (100);
         delay until Next;
         Put_Line ("steady");
      end loop;
   end Steady;
begin
   null;
end Main;
