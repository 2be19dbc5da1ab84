procedure Main is
   X, Y : Integer := 5;
begin
   X := (if Y > 3 then 1 else 0);
end Main;
