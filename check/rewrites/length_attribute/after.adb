procedure Main is
   type Table is array (1 .. 10) of Integer;
   T : Table;
   N : Integer := T'Last - T'First + 1;
begin
   T (1) := N;
end Main;
