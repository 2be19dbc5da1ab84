procedure Main is
   task type Worker (Id : Integer);
   A : Worker (1);
   B : Worker (2);
   task body Worker is
      N : Integer := Id;
   begin
      N := N + 1;
   end Worker;
begin
   null;
end Main;
