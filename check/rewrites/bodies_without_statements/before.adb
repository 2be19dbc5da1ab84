procedure Main is
   task T;
   task body T is
   begin
   end T;
begin
   null;
end Main;
