procedure Main is
   type Table is array (1 .. 10) of Integer;
   T : Table;
begin
   for I in T'Range loop
      T (I) := 0;
   end loop;
end Main;
