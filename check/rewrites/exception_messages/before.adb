procedure Main is
   Overload : exception;
begin
   raise Overload with "too much";
exception
   when Overload => null;
end Main;
