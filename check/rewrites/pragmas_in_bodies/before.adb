procedure Main is
   X : Integer := 5;
begin
   pragma Assert (X > 0);
   X := 0;
end Main;
