procedure Main is
   type Table is array (1 .. 10) of Integer;
   protected Store is
      procedure Set (X : in Integer);
   private
      Items : Table;
   end Store;
   protected body Store is
      procedure Set (X : in Integer) is
      begin
         Items (1) := X;
      end Set;
   end Store;
begin
   Store.Set (5);
end Main;
