procedure Main is
   task T with CPU => 2;
   task body T is
   begin
      null;
   end T;
begin
   null;
end Main;
