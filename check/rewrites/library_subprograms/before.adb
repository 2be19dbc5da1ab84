procedure Work is
begin
   null;
end Work;
with Work;
procedure Main is
begin
   Work;
end Main;
