procedure Main is
   X : Integer := 5;
begin
   X = 6;
end Main;
