package Servers is
   protected type Server is
      procedure Serve;
   end Server;
end Servers;
package body Servers is
   protected body Server is
      procedure Serve is
      begin
         null;
      end Serve;
   end Server;
end Servers;
procedure Main is
begin
   null;
end Main;
