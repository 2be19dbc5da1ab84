procedure Main is
   Mask : Integer := 255;
begin
   Mask := 0;
end Main;
