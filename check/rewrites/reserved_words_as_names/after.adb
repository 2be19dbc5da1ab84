procedure Main is
   Job : Integer := 0;
begin
   Job := 1;
end Main;
