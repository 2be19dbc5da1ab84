procedure Main is
   protected Queue is
      entry Wait;
   private
      Open : Boolean := True;
   end Queue;
   protected body Queue is
      entry Wait when Open is
      begin
         null;
      end Wait;
   end Queue;
   task Server is
      entry Serve;
   end Server;
   task body Server is
   begin
      accept Serve do
         requeue Queue.Wait;
      end Serve;
   end Server;
begin
   Server.Serve;
end Main;
