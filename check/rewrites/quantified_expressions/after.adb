procedure Main is
   type Table is array (1 .. 10) of Integer;
   T : Table;
   B : Boolean;
begin
   B := True;
   for I in 1 .. 10 loop
      if T (I) <= 0 then
         B := False;
      end if;
   end loop;
end Main;
