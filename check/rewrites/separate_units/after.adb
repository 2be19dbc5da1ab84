procedure Main is
   procedure Work is
   begin
      null;
   end Work;
begin
   Work;
end Main;
