procedure Main is
   task T is
      pragma Priority (10);
   end T;
   task body T is
   begin
      null;
   end T;
begin
   null;
end Main;
