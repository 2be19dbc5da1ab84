procedure Main is
   X, Y : Integer := 5;
begin
   if Y > X then
      X := Y;
   end if;
end Main;
