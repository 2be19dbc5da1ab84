procedure Main is
   X : Integer;
begin
   X := Integer'(5);
end Main;
