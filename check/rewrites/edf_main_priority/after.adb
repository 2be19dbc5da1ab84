pragma Task_Dispatching_Policy (EDF_Across_Priorities);
procedure Main
   with Interrupt_Priority => 31
is
begin
   null;
end Main;
