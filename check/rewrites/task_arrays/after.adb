procedure Main is
   task type Worker;
   W1, W2, W3 : Worker;
   task body Worker is
   begin
      null;
   end Worker;
begin
   null;
end Main;
