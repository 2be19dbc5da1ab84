procedure Main is
   A, B, C : Boolean := True;
begin
   if (A and B) or C then
      A := False;
   end if;
end Main;
