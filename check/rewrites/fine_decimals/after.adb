procedure Main is
begin
   delay 0.000001;
end Main;
