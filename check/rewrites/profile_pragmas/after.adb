pragma Task_Dispatching_Policy (FIFO_Within_Priorities);
pragma Locking_Policy (Ceiling_Locking);
pragma Restrictions (No_Abort_Statements, No_Dynamic_Priorities, No_Relative_Delay);
pragma Restrictions (No_Select_Statements, No_Task_Hierarchy, Simple_Barriers);
pragma Restrictions (Max_Task_Entries => 0, Max_Protected_Entries => 1);
procedure Main is
begin
   null;
end Main;
