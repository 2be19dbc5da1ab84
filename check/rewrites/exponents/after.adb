procedure Main is
   Million : Integer := 1_000_000;
begin
   Million := 0;
end Main;
