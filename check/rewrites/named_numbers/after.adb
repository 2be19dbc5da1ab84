procedure Main is
   Limit : constant Integer := 10;
   X : Integer := Limit;
begin
   X := X + Limit;
end Main;
