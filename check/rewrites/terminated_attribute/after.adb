procedure Main is
begin
   declare
      task T;
      task body T is
      begin
         null;
      end T;
   begin
      null;
   end;
end Main;
