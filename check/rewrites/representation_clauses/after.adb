procedure Main is
   type Phase is (Idle, Busy);
   P : Phase := Idle;
begin
   P := Busy;
end Main;
