procedure Main is
   type Table is array (1 .. 10) of Integer;
   T : Table;
begin
   T (1) := 5;
end Main;
