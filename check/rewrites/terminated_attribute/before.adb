procedure Main is
   task T;
   task body T is
   begin
      null;
   end T;
begin
   while not T'Terminated loop
      delay 0.001;
   end loop;
end Main;
