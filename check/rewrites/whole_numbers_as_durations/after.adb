procedure Main is
begin
   delay 5.0;
end Main;
