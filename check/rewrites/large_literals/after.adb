procedure Main is
   X : Integer := 3_000;  -- in millions
begin
   X := 0;
end Main;
