procedure Main is
   subtype Byte is Integer range 0 .. 255;
   B : Byte := 255;
begin
   B := (B + 1) mod 256;
end Main;
