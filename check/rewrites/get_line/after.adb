with Ada.Text_IO; use Ada.Text_IO;
with Script_Ports;
procedure Main is
   X : Integer := Script_Ports.Value (0);
begin
   if X = 1 then
      Put_Line ("go");
   end if;
end Main;
