procedure Main is
   Mask : Integer := 16#FF#;
begin
   Mask := 0;
end Main;
