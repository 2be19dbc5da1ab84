procedure Main is
   type Action is access procedure;
   procedure Step is
   begin
      null;
   end Step;
   A : Action := Step'Access;
begin
   A.all;
end Main;
