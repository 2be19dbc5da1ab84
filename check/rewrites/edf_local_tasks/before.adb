pragma Priority_Specific_Dispatching (EDF_Across_Priorities, 1, 10);
procedure Main is
   task T with Priority => 5;
   task body T is
   begin
      null;
   end T;
begin
   null;
end Main;
