procedure Main is
   N : constant Integer := 10;
   type Table is array (1 .. N) of Integer;
   T : Table;
begin
   T (1) := 5;
end Main;
