procedure Main is
   X, Y : Integer := 5;
begin
   X := Integer'Max (X, Y);
end Main;
