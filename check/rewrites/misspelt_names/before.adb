procedure Main is
   Total : Integer := 0;
begin
   Totl := 5;
end Main;
