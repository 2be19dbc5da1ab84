procedure Main is
   Seed : Integer := 1;
begin
   Seed := (Seed * 75 + 74) mod 65_537;
end Main;
