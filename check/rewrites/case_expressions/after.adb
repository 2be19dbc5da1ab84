procedure Main is
   B : Boolean := True;
   X : Integer;
begin
   case B is
      when True => X := 1;
      when False => X := 0;
   end case;
   X := X + 1;
end Main;
