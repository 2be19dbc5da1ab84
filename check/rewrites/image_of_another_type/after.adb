with Ada.Text_IO; use Ada.Text_IO;
procedure Main is
   type Phase is (Idle, Busy);
   P : Phase := Busy;
begin
   Put_Line (Phase'Image (P));
end Main;
