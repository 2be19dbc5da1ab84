procedure Main is
   procedure First is
   begin
      Second;
   end First;
   procedure Second is
   begin
      null;
   end Second;
begin
   First;
end Main;
