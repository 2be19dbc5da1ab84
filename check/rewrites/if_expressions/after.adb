procedure Main is
   X, Y : Integer := 5;
begin
   if Y > 3 then
      X := 1;
   else
      X := 0;
   end if;
end Main;
