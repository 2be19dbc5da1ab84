with Ada.Text_IO; use Ada.Text_IO;
procedure Main is
   task Low with Priority => 10;
   task High with Priority => 20;

   task body Low is
   begin
      Put_Line ("low");
   end Low;

   task body High is
   begin
      delay 0.000010;
      Put_Line ("high");
   end High;
begin
   Put_Line ("main");
end Main;
