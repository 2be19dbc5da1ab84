procedure Main is
   P_X, P_Y : Integer := 0;
begin
   P_X := 3;
end Main;
