procedure Main is
   Flag : Boolean := False;
begin
   Flag := True;
end Main;
