procedure Main is
   type Grades is (A, B, C);
   Grade : Grades := A;
begin
   Grade := B;
end Main;
