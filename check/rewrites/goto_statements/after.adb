procedure Main is
   X : Integer := 0;
begin
   X := X + 1;
   if X >= 5 then
      X := 0;
   end if;
end Main;
