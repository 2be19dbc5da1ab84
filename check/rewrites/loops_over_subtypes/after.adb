procedure Main is
   N : Integer := 0;
begin
   for I in 1 .. 10 loop
      N := N + I;
   end loop;
end Main;
