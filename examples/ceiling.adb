with Ada.Text_IO; use Ada.Text_IO;
procedure Main is
   protected Resource with Priority => 20 is
      procedure Work (Turns : in Positive);
   end Resource;

   task Low with Priority => 5;
   task Middle with Priority => 10;
   task High with Priority => 20;

   procedure Work (Turns : in Positive) is
   begin
      for Turn in 1 .. Turns loop
         null;
      end loop;
   end Work;

   protected body Resource is
      procedure Work (Turns : in Positive) is
      begin
         for Turn in 1 .. Turns loop
            null;
         end loop;
      end Work;
   end Resource;

   task body Low is
   begin
      Resource.Work (10);
   end Low;

   task body Middle is
   begin
      delay 0.000020;
      Work (30);
      Put_Line ("middle");
   end Middle;

   task body High is
   begin
      delay 0.000015;
      Resource.Work (1);
      Put_Line ("high");
   end High;
begin
   null;
end Main;
