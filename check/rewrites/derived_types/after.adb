procedure Main is
   subtype Metres is Integer;
   M : Metres := 5;
begin
   M := M + 1;
end Main;
