with Ada.Integer_Text_IO;
procedure Main is
begin
   Ada.Integer_Text_IO.Put (5);
end Main;
