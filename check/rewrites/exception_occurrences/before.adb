procedure Main is
   Overload : exception;
begin
   raise Overload;
exception
   when E : others => null;
end Main;
