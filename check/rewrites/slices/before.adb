procedure Main is
   type Table is array (1 .. 6) of Integer;
   T : Table;
begin
   T (1 .. 3) := T (4 .. 6);
end Main;
