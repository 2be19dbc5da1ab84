procedure Main is
   type Table is array (1 .. 3) of Integer;
   T : Table;
begin
   T (1) := 1;
   T (2) := 2;
   T (3) := 3;
end Main;
