-- periodic tasks of examples/tables/assigning_priorities.table, all released at tick 100
--    ./annexd run SOURCE.adb > RUN.trace
--    tools/jobs RUN.trace examples/tables/assigning_priorities.table --from 100
with Ada.Real_Time; use Ada.Real_Time;
procedure Main is
   task Alarm with Priority => 1;
   task Control with Priority => 3;
   task Log with Priority => 2;

   task body Alarm is
      Next   : Time := Time_First + Microseconds (100);
      Period : constant Time_Span := Microseconds (200);
   begin
      for Job in 1 .. 2 loop
         delay until Next;
         null;
         for Turn in 1 .. 6 loop
            null;
         end loop;
         Next := Next + Period;
      end loop;
      null;
   end Alarm;

   task body Control is
      Next   : Time := Time_First + Microseconds (100);
      Period : constant Time_Span := Microseconds (100);
   begin
      for Job in 1 .. 3 loop
         delay until Next;
         null;
         for Turn in 1 .. 11 loop
            null;
         end loop;
         Next := Next + Period;
      end loop;
      null;
   end Control;

   task body Log is
      Next   : Time := Time_First + Microseconds (100);
      Period : constant Time_Span := Microseconds (150);
   begin
      for Job in 1 .. 2 loop
         delay until Next;
         null;
         for Turn in 1 .. 21 loop
            null;
         end loop;
         Next := Next + Period;
      end loop;
      null;
   end Log;
begin
   null;
end Main;
