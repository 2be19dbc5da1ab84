procedure Main is
   X : Integer := 3_000_000_000;
begin
   X := 0;
end Main;
