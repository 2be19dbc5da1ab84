procedure Main is
   subtype Hundredths is Integer range 0 .. 5_000;
   V : Hundredths := 1_250;
begin
   V := V + 25;
end Main;
