procedure Main is
   T : array (1 .. 10) of Integer;
begin
   T (1) := 5;
end Main;
