procedure Main is
   task T;
begin
   null;
end Main;
