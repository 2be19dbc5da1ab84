package Shapes is
   type Shape is (Circle, Square);
end Shapes;
procedure Main is
begin
   null;
end Main;
