procedure Main is
   type Level is range 0 .. 100;
   L : Level := 5;
begin
   L := L + 1;
end Main;
