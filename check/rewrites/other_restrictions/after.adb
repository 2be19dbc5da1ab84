pragma Restrictions (No_Task_Hierarchy);
procedure Main is
begin
   null;
end Main;
