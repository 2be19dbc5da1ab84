procedure Main is
   type Buffer (Size : Positive) is limited null record;
   B : Buffer (8);
begin
   null;
end Main;
