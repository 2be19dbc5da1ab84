procedure Main is
   X : Integer := 2 ** 10;
begin
   X := 0;
end Main;
