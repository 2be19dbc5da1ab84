with Ada.Text_IO;
procedure Main is
   procedure Say (Text : String) renames Ada.Text_IO.Put_Line;
begin
   Say ("hi");
end Main;
