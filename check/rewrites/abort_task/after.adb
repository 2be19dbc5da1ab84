procedure Main is
   task T;
   task body T is
   begin
      delay 1.0;
   end T;
begin
   abort T;
end Main;
