procedure Main is
   type Table is array (1 .. 6) of Integer;
   T : Table;
begin
   for I in 1 .. 3 loop
      T (I) := T (I + 3);
   end loop;
end Main;
