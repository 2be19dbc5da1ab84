procedure Main is
   X : Integer := 1.5;
begin
   X := 2;
end Main;
