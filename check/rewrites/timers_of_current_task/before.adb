with Ada.Execution_Time.Timers; use Ada.Execution_Time.Timers;
with Ada.Task_Identification; use Ada.Task_Identification;
procedure Main is
   Me : aliased constant Task_Id := Current_Task;
   T : Timer (Me'Access);
begin
   null;
end Main;
