procedure Main is
   X : Integer := 5;
begin
   X := X * (-1);
end Main;
