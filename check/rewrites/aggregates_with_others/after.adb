procedure Main is
   type Table is array (1 .. 3) of Integer;
   T : Table;
begin
   for I in 1 .. 3 loop
      T (I) := 7;
   end loop;
end Main;
