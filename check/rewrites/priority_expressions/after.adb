procedure Main is
   task T with Priority => 16;
   task body T is
   begin
      null;
   end T;
begin
   null;
end Main;
