with Ada.Text_IO; use Ada.Text_IO;
procedure Main is
   D : Duration := 0.5;
begin
   if D > 0.4 then
      Put_Line ("more than 0.4 s");
   end if;
end Main;
