procedure Main is
   function Weight (I : in Integer) return Integer is
   begin
      case I is
         when 1 => return 5;
         when 2 => return 10;
         when others => return 20;
      end case;
   end Weight;
   Sum : Integer := 0;
   W : Integer;
begin
   for I in 1 .. 3 loop
      W := Weight (I);
      Sum := Sum + W;
   end loop;
end Main;
