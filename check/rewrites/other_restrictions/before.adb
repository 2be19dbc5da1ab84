pragma Restrictions (No_Task_Termination);
procedure Main is
begin
   null;
end Main;
