procedure Main is
   type Grid is array (1 .. 3, 1 .. 3) of Integer;
   G : Grid;
begin
   G (2, 3) := 5;
end Main;
