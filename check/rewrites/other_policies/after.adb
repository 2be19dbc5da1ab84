pragma Task_Dispatching_Policy (FIFO_Within_Priorities);
procedure Main is
begin
   null;
end Main;
