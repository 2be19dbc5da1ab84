procedure Main is
   N : Integer := 5;
   subtype Small is Integer range 1 .. N;
   X : Small := 1;
begin
   X := N;
end Main;
