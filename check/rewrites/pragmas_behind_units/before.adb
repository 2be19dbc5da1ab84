with Ada.Text_IO; use Ada.Text_IO;
pragma Queuing_Policy (Priority_Queuing);
procedure Main is
begin
   Put_Line ("hi");
end Main;
