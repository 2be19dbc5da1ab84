with Ada.Text_IO; use Ada.Text_IO;
procedure Main is
   Overload : exception;
begin
   Put_Line ("too much");
   raise Overload;
exception
   when Overload => null;
end Main;
