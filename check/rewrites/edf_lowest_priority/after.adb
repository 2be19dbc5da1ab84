pragma Priority_Specific_Dispatching (EDF_Across_Priorities, 1, 10);
package Jobs is
   task T with Priority => 2;
end Jobs;
package body Jobs is
   task body T is
   begin
      null;
   end T;
end Jobs;
procedure Main is
begin
   null;
end Main;
