procedure Main is
   procedure Add (X, Y : in Integer) is
   begin
      null;
   end Add;
begin
   Add (1);
end Main;
