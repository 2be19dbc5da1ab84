procedure Main is
   X : Integer := 1_024;
begin
   X := 0;
end Main;
