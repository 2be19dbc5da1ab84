procedure Main is
   procedure Set (X : Integer) is
   begin
      null;
   end Set;
   procedure Set (B : Boolean) is
   begin
      null;
   end Set;
begin
   Set (5);
end Main;
