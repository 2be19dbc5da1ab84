procedure Main is
   type Table is array (1 .. 10) of Integer;
   T : Table;
   N : Integer := T'Length;
begin
   T (1) := N;
end Main;
