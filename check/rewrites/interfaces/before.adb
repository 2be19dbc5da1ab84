package Servers is
   type Server is synchronized interface;
end Servers;
procedure Main is
begin
   null;
end Main;
