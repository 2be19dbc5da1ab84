procedure Main is
   type Table is array (1 .. 10) of Integer;
   T : Table;
   Sum : Integer := 0;
begin
   for X of T loop
      Sum := Sum + X;
   end loop;
end Main;
