procedure Main is
   type Phase is (Idle, Busy, Done);
   P : Phase := Idle;
begin
   P := Phase'Succ (P);
end Main;
