with Ada.Synchronous_Task_Control; use Ada.Synchronous_Task_Control;
procedure Main is
   Go : Suspension_Object;
begin
   Set_True (Go);
   Suspend_Until_True (Go);
end Main;
