procedure Main is
   function One return Integer is
      X : Integer;
   begin
      X := 1;
      return X;
   end One;
   Y : Integer;
begin
   Y := One;
end Main;
