procedure Main is
   task Server is
      entry Serve_1;
      entry Serve_2;
      entry Serve_3;
   end Server;
   task body Server is
   begin
      accept Serve_1;
      accept Serve_2;
      accept Serve_3;
   end Server;
begin
   Server.Serve_1;
   Server.Serve_2;
   Server.Serve_3;
end Main;
