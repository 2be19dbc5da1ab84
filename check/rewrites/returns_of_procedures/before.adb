procedure Main is
begin
   return 0;
end Main;
