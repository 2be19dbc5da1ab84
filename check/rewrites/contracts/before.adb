procedure Main is
   procedure Set (X : in Integer) with Pre => X > 0;
   procedure Set (X : in Integer) is
   begin
      null;
   end Set;
begin
   Set (5);
end Main;
