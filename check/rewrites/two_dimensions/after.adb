procedure Main is
   type Grid is array (1 .. 9) of Integer;
   G : Grid;
begin
   G ((2 - 1) * 3 + 3) := 5;
end Main;
