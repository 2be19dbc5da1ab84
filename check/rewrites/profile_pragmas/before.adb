pragma Profile (Ravenscar);
procedure Main is
begin
   null;
end Main;
