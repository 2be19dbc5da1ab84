procedure Main is
   task Server is
      entry Stop;
   end Server;
   task body Server is
   begin
      loop
         accept Stop do
            exit;
         end Stop;
      end loop;
   end Server;
begin
   Server.Stop;
end Main;
