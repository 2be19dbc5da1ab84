procedure Main is
   type Metres is new Integer;
   M : Metres := 5;
begin
   M := M + 1;
end Main;
