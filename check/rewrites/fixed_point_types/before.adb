procedure Main is
   type Volts is delta 0.01 range 0.0 .. 50.0;
   V : Volts := 12.5;
begin
   V := V + 0.25;
end Main;
