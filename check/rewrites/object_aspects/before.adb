procedure Main is
   Flag : Boolean := False with Volatile;
begin
   Flag := True;
end Main;
