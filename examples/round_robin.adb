pragma Task_Dispatching_Policy (Round_Robin_Within_Priorities);
with Ada.Dispatching.Round_Robin; use Ada.Dispatching.Round_Robin;
with Ada.Real_Time; use Ada.Real_Time;
with Ada.Text_IO; use Ada.Text_IO;
procedure Main is
   procedure Work (Turns : in Positive) is
   begin
      for Turn in 1 .. Turns loop
         null;
      end loop;
   end Work;
begin
   Set_Quantum (15, Microseconds (10));
   declare
      task Long;
      task Short;

      task body Long is
      begin
         Work (15);
         Put_Line ("long");
      end Long;

      task body Short is
      begin
         Work (5);
         Put_Line ("short");
      end Short;
   begin
      null;
   end;
end Main;
