procedure Main is
   type Table is array (1 .. 3) of Integer;
   T : Table;
   procedure Clear is
   begin
      T (1) := 0;
   end Clear;
begin
   Clear;
end Main;
