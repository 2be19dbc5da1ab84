procedure Main is
   X : Natural := 5;
   Y : Integer := 7;
begin
   X := Natural (Y);
end Main;
