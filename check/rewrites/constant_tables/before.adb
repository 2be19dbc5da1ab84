procedure Main is
   Weights : constant array (1 .. 3) of Integer := (5, 10, 20);
   Sum : Integer := 0;
begin
   for I in 1 .. 3 loop
      Sum := Sum + Weights (I);
   end loop;
end Main;
