with Ada.Dispatching; use Ada.Dispatching;
procedure Main is
begin
   Yield;
end Main;
