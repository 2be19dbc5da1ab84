procedure Main is
   subtype Index is Integer range 1 .. 10;
   type Table is array (Index) of Integer;
   T : Table;
begin
   T (1) := 5;
end Main;
