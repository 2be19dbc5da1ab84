procedure Main is
   N : Integer := 5;
   procedure Step (X : in out Integer) is
   begin
      X := X + 1;
   end Step;
begin
   Step (N);
end Main;
