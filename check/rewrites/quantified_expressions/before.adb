procedure Main is
   type Table is array (1 .. 10) of Integer;
   T : Table;
   B : Boolean;
begin
   B := (for all I in 1 .. 10 => T (I) > 0);
end Main;
