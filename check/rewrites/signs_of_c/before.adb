procedure Main is
   X : Integer := 5;
begin
   if X != 6 then
      X := 6;
   end if;
end Main;
