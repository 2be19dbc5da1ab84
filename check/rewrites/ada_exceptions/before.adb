with Ada.Exceptions; use Ada.Exceptions;
procedure Main is
begin
   null;
end Main;
