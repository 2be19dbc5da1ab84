with Ada.Real_Time; use Ada.Real_Time;
with Ada.Text_IO; use Ada.Text_IO;
procedure Main is
   Start : Time := Clock;
   Spent : Time_Span;
   Count : Integer := 0;
begin
   Spent := Clock - Start;
   while Spent >= Microseconds (1) loop
      Spent := Spent - Microseconds (1);
      Count := Count + 1;
   end loop;
   Put_Line (Integer'Image (Count) & " ticks");
end Main;
