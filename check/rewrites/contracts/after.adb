procedure Main is
   procedure Set (X : in Integer);
   procedure Set (X : in Integer) is
   begin
      if X <= 0 then
         raise Program_Error;
      end if;
   end Set;
begin
   Set (5);
end Main;
