procedure Main is
   procedure Work is separate;
begin
   Work;
end Main;
separate (Main)
procedure Work is
begin
   null;
end Work;
