procedure Main is
begin
   Ada.Text_IO.Put_Line ("hi");
end Main;
