package Shapes is
   type Shape is tagged null record;
end Shapes;
procedure Main is
begin
   null;
end Main;
