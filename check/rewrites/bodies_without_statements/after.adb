procedure Main is
   task T;
   task body T is
   begin
      null;
   end T;
begin
   null;
end Main;
