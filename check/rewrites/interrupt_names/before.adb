with Ada.Interrupts.Names;
package Devices is
   protected Device is
      procedure Strike with Attach_Handler => Ada.Interrupts.Names.SIGINT;
   end Device;
end Devices;
package body Devices is
   protected body Device is
      procedure Strike is
      begin
         null;
      end Strike;
   end Device;
end Devices;
procedure Main is
begin
   null;
end Main;
