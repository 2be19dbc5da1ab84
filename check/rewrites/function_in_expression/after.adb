procedure Main is
   function Square (X : Integer) return Integer is
   begin
      return X * X;
   end Square;
   Y : Integer;
begin
   Y := Square (3);
   Y := Y + 1;
end Main;
