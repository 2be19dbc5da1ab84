procedure Main is
   Limit : constant := 10;
   X : Integer := Limit;
begin
   X := X + Limit;
end Main;
