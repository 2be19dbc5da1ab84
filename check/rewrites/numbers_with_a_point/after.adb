procedure Main is
   X : Integer := 15;  -- in tenths
begin
   X := 20;
end Main;
