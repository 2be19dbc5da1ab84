with Ada.Text_IO; use Ada.Text_IO;
procedure Main is
   type Message is (Ready, Done);
   M : Message := Ready;
begin
   Put_Line (Message'Image (M));
end Main;
