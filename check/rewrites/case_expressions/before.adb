procedure Main is
   B : Boolean := True;
   X : Integer := (case B is when True => 1, when False => 0);
begin
   X := X + 1;
end Main;
