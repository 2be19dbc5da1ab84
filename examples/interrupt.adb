package Device is
   protected Receiver with Interrupt_Priority => 31 is
      procedure Arrived with Attach_Handler => 3;
      entry Receive (Item : out Integer);
   private
      Full : Boolean := False;
      Kept : Integer := 0;
      Lost : Integer := 0;
   end Receiver;
end Device;

with Script_Ports; use Script_Ports;
package body Device is
   protected body Receiver is
      procedure Arrived is
      begin
         if Full then
            Lost := Lost + 1;
         end if;
         Kept := Value (0);
         Full := True;
      end Arrived;

      entry Receive (Item : out Integer) when Full is
      begin
         Item := Kept;
         Full := False;
      end Receive;
   end Receiver;
end Device;

with Ada.Text_IO; use Ada.Text_IO;
with Device;
procedure Main is
   Item : Integer;
begin
   for Turn in 1 .. 2 loop
      Device.Receiver.Receive (Item);
      Put_Line ("received" & Integer'Image (Item));
   end loop;
end Main;
