with Ada.Execution_Time.Timers; use Ada.Execution_Time.Timers;
with Ada.Task_Identification; use Ada.Task_Identification;
package Guards is
   Me : aliased constant Task_Id := Current_Task;
   T : Timer (Me'Access);
end Guards;
procedure Main is
begin
   null;
end Main;
