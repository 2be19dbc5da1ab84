procedure Main is
   type Byte is mod 256;
   B : Byte := 255;
begin
   B := B + 1;
end Main;
