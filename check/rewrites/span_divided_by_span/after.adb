procedure Main is
   N : Integer;
begin
   N := 1_000 / 10;
end Main;
