with Ada.Strings.Unbounded;
procedure Main is
begin
   null;
end Main;
