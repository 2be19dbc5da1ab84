with Ada.Text_IO; use Ada.Text_IO;
procedure Main is
   package Int_IO is new Ada.Text_IO.Integer_IO (Integer);
begin
   Int_IO.Put (5);
end Main;
