with Ada.Text_IO; use Ada.Text_IO;
procedure Main is
   Overload : exception;
begin
   raise Overload;
exception
   when Overload => Put_Line ("overload");
   when others => Put_Line ("another");
end Main;
