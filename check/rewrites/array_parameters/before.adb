procedure Main is
   type Table is array (1 .. 3) of Integer;
   T : Table;
   procedure Clear (X : in out Table) is
   begin
      X (1) := 0;
   end Clear;
begin
   Clear (T);
end Main;
