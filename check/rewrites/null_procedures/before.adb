procedure Main is
   procedure Skip is null;
begin
   Skip;
end Main;
