pragma Task_Dispatching_Policy (Non_Preemptive_FIFO_Within_Priorities);
procedure Main is
begin
   null;
end Main;
