procedure Main is
   procedure Skip is
   begin
      null;
   end Skip;
begin
   Skip;
end Main;
