with Ada.Real_Time; use Ada.Real_Time;
with Ada.Text_IO; use Ada.Text_IO;
procedure Main is
   Start : Time := Clock;
begin
   Put_Line (Duration'Image (To_Duration (Clock - Start)));
end Main;
