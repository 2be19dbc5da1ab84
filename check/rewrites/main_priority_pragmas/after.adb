procedure Main
   with Priority => 5
is
begin
   null;
end Main;
