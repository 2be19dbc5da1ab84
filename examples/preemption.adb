with Ada.Text_IO; use Ada.Text_IO;
procedure Main is
   task Low with Priority => 5;
   task Middle with Priority => 10;
   task High with Priority => 20;

   procedure Work (Turns : in Positive) is
   begin
      for Turn in 1 .. Turns loop
         null;
      end loop;
   end Work;

   task body Low is
   begin
      Work (10);
      Put_Line ("low ends");
   end Low;

   task body Middle is
   begin
      delay 0.000010;
      Work (10);
      Put_Line ("middle ends");
   end Middle;

   task body High is
   begin
      delay 0.000020;
      Put_Line ("high ends");
   end High;
begin
   null;
end Main;
