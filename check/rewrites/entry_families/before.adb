procedure Main is
   task Server is
      entry Serve (1 .. 3);
   end Server;
   task body Server is
   begin
      for I in 1 .. 3 loop
         accept Serve (I);
      end loop;
   end Server;
begin
   for I in 1 .. 3 loop
      Server.Serve (I);
   end loop;
end Main;
