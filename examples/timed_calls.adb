with Ada.Text_IO; use Ada.Text_IO;
procedure Main is
   task Sensor with Priority => 12 is
      entry Read;
   end Sensor;

   task Display with Priority => 10;

   task body Sensor is
   begin
      delay 0.000080;
      accept Read;
   end Sensor;

   task body Display is
   begin
      select
         Sensor.Read;
         Put_Line ("at once");
      else
         Put_Line ("not now");
      end select;
      select
         Sensor.Read;
         Put_Line ("in time");
      or
         delay 0.000020;
         Put_Line ("too late");
      end select;
      Sensor.Read;
      Put_Line ("at last");
   end Display;
begin
   null;
end Main;
