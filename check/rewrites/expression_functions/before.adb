procedure Main is
   function Square (X : Integer) return Integer is (X * X);
   Y : Integer;
begin
   Y := Square (3);
end Main;
