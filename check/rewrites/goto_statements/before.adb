procedure Main is
   X : Integer := 0;
begin
   X := X + 1;
   if X < 5 then
      goto Done;
   end if;
   X := 0;
   <<Done>>
   null;
end Main;
