procedure Main is
   function One return Integer is
   begin
      return X : Integer do
         X := 1;
      end return;
   end One;
   Y : Integer;
begin
   Y := One;
end Main;
