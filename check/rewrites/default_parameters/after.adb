procedure Main is
   procedure Work (Turns : in Positive) is
   begin
      for I in 1 .. Turns loop
         null;
      end loop;
   end Work;
begin
   Work (10);
end Main;
