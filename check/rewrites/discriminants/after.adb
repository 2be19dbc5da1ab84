procedure Main is
   Size : constant Positive := 8;
   type Buffer is array (1 .. Size) of Integer;
   B : Buffer;
begin
   B (1) := 0;
end Main;
