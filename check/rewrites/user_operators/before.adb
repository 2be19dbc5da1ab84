procedure Main is
   type Phase is (Idle, Busy);
   function "+" (P, Q : Phase) return Phase is
   begin
      return Q;
   end "+";
   X : Phase := Idle;
begin
   X := X + Busy;
end Main;
