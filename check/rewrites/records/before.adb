procedure Main is
   type Point is record
      X, Y : Integer := 0;
   end record;
   P : Point;
begin
   P.X := 3;
end Main;
