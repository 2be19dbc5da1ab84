procedure Main is
   type Real is digits 6;
   X : Real := 1.5;
begin
   X := X + 0.5;
end Main;
