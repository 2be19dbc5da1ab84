procedure Main is
   type Link is access Integer;
   P : Link := new Integer'(5);
begin
   P.all := 6;
end Main;
