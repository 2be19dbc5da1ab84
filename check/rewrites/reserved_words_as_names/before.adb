procedure Main is
   Task : Integer := 0;
begin
   Task := 1;
end Main;
