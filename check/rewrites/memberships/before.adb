procedure Main is
   X : Integer := 5;
begin
   if X in 1 .. 10 then
      X := 0;
   end if;
end Main;
