procedure Main is
   X : Natural := 5;
   Y : Integer := 7;
begin
   X := Y;
end Main;
