with Ada.Numerics.Discrete_Random;
procedure Main is
begin
   null;
end Main;
