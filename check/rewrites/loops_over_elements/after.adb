procedure Main is
   type Table is array (1 .. 10) of Integer;
   T : Table;
   Sum : Integer := 0;
begin
   for I in T'First .. T'Last loop
      Sum := Sum + T (I);
   end loop;
end Main;
