procedure Main is
   Million : Integer := 1E6;
begin
   Million := 0;
end Main;
