procedure Main is
   package Counter is
      N : Integer := 0;
   end Counter;
begin
   Counter.N := 1;
end Main;
