procedure Main is
begin
   delay 0.0;
end Main;
