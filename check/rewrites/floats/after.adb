procedure Main is
   Speed : Integer := 1_500;  -- in thousandths
begin
   Speed := Speed * 2;
end Main;
