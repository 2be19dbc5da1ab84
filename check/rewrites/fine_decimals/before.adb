procedure Main is
begin
   delay 0.0000005;
end Main;
