procedure Main is
   procedure Step (X : in Integer) is
   begin
      X := X + 1;
   end Step;
begin
   Step (5);
end Main;
