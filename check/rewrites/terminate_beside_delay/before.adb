procedure Main is
   task Server is
      entry Serve;
   end Server;
   task body Server is
   begin
      loop
         select
            accept Serve;
         or
            delay 1.0;
         or
            terminate;
         end select;
      end loop;
   end Server;
begin
   Server.Serve;
end Main;
