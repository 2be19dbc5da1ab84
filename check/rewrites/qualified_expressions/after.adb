procedure Main is
   X : Integer;
begin
   X := 5;
end Main;
