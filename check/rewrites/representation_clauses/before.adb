procedure Main is
   type Phase is (Idle, Busy);
   for Phase use (Idle => 1, Busy => 2);
   P : Phase := Idle;
begin
   P := Busy;
end Main;
