procedure Main is
   Total : Integer := 0;
begin
   Total := 5;
end Main;
