procedure Main is
   type Items is array (1 .. 100) of Integer;
   Used : Integer range 0 .. 100 := 0;
   Store : Items;
begin
   Used := Used + 1;
   Store (Used) := 5;
end Main;
