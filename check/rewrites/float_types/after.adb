procedure Main is
   X : Integer := 15;  -- in tenths
begin
   X := X + 5;
end Main;
