procedure Main is
   X : Integer := 5;
begin
   if not (X > 0) then
      raise Program_Error;
   end if;
   X := 0;
end Main;
