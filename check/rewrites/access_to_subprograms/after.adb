procedure Main is
   procedure Step is
   begin
      null;
   end Step;
begin
   Step;
end Main;
