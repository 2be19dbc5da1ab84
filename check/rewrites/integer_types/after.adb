procedure Main is
   subtype Level is Integer range 0 .. 100;
   L : Level := 5;
begin
   L := L + 1;
end Main;
