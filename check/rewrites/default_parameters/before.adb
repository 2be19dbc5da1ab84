procedure Main is
   procedure Work (Turns : in Positive := 10) is
   begin
      for I in 1 .. Turns loop
         null;
      end loop;
   end Work;
begin
   Work;
end Main;
