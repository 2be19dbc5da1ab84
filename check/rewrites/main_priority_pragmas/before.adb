procedure Main is
   pragma Priority (5);
begin
   null;
end Main;
