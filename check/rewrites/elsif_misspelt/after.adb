procedure Main is
   X : Integer := 5;
begin
   if X = 1 then
      X := 2;
   elsif X = 2 then
      X := 3;
   end if;
end Main;
