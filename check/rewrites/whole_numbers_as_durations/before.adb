procedure Main is
begin
   delay 5;
end Main;
