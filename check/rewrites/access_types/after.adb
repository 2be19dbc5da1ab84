procedure Main is
   type Pool is array (1 .. 10) of Integer;
   Items : Pool;
   P : Integer range 1 .. 10 := 1;
begin
   Items (P) := 6;
end Main;
