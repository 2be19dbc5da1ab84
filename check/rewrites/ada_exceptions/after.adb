procedure Main is
begin
   null;
exception
   when Constraint_Error => null;
end Main;
