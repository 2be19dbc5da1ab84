procedure Main is
   protected Store is
      procedure Set (X : in Integer);
   private
      Items : array (1 .. 10) of Integer;
   end Store;
   protected body Store is
      procedure Set (X : in Integer) is
      begin
         Items (1) := X;
      end Set;
   end Store;
begin
   Store.Set (5);
end Main;
