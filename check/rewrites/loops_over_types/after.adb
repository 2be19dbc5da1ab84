procedure Main is
   type Phase is (Idle, Busy, Done);
   N : Integer := 0;
begin
   for P in Phase'First .. Phase'Last loop
      N := N + 1;
   end loop;
end Main;
