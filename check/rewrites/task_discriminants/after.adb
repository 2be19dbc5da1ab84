procedure Main is
   task type Worker is
      entry Start (Id : in Integer);
   end Worker;
   A : Worker;
   B : Worker;
   task body Worker is
      N : Integer;
   begin
      accept Start (Id : in Integer) do
         N := Id;
      end Start;
      N := N + 1;
   end Worker;
begin
   A.Start (1);
   B.Start (2);
end Main;
