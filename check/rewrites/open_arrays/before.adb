procedure Main is
   type Table is array (Positive range <>) of Integer;
   T : Table (1 .. 10);
begin
   T (1) := 5;
end Main;
