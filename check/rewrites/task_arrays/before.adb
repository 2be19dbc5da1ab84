procedure Main is
   task type Worker;
   type Workers is array (1 .. 3) of Worker;
   W : Workers;
   task body Worker is
   begin
      null;
   end Worker;
begin
   null;
end Main;
