procedure Main is
   task T with Priority => 10;
   task body T is
   begin
      null;
   end T;
begin
   null;
end Main;
