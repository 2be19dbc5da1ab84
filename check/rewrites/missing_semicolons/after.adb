procedure Main is
   X : Integer := 0;
begin
   X := 1;
   X := 2;
end Main;
