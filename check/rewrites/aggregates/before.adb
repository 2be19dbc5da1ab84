procedure Main is
   type Table is array (1 .. 3) of Integer;
   T : Table := (1, 2, 3);
begin
   T (1) := 5;
end Main;
