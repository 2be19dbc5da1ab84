procedure Main is
   protected type Cell is
      procedure Set;
   private
      N : Integer := 0;
   end Cell;
   protected body Cell is
      procedure Set is
      begin
         N := 1;
      end Set;
   end Cell;
   A : Cell;
   B : Cell := A;
begin
   A.Set;
end Main;
