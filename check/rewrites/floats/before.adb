procedure Main is
   Speed : Float := 1.5;
begin
   Speed := Speed * 2.0;
end Main;
