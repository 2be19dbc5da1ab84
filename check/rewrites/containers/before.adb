with Ada.Containers.Vectors;
procedure Main is
begin
   null;
end Main;
