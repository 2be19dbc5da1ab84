procedure Main is
   type Phase is (Idle, Busy);
   function Next (P, Q : Phase) return Phase is
   begin
      return Q;
   end Next;
   X : Phase := Idle;
begin
   X := Next (X, Busy);
end Main;
