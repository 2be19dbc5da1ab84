procedure Main is
   Grade : Character := 'A';
begin
   Grade := 'B';
end Main;
