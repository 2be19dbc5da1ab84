procedure Main is
begin
   Put_Line ("hi");
end Main;
