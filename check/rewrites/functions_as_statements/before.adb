procedure Main is
   N : Integer := 0;
   function Next return Integer is
   begin
      N := N + 1;
      return N;
   end Next;
begin
   Next;
end Main;
