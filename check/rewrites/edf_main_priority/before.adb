pragma Task_Dispatching_Policy (EDF_Across_Priorities);
procedure Main is
begin
   null;
end Main;
