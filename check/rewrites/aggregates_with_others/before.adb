procedure Main is
   type Table is array (1 .. 3) of Integer;
   T : Table := (others => 7);
begin
   T (1) := 5;
end Main;
