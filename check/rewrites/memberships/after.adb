procedure Main is
   X : Integer := 5;
begin
   if X >= 1 and X <= 10 then
      X := 0;
   end if;
end Main;
