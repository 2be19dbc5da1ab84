with Ada.Text_IO; use Ada.Text_IO;
procedure Main is
   protected Lock with Priority => 20 is
      entry Take;
      procedure Give;
   private
      Free : Boolean := True;
   end Lock;

   task Low with Priority => 5;
   task Middle with Priority => 10;
   task High with Priority => 20;

   procedure Work (Turns : in Positive) is
   begin
      for Turn in 1 .. Turns loop
         null;
      end loop;
   end Work;

   protected body Lock is
      entry Take when Free is
      begin
         Free := False;
      end Take;

      procedure Give is
      begin
         Free := True;
      end Give;
   end Lock;

   task body Low is
   begin
      Lock.Take;
      Work (10);
      Lock.Give;
   end Low;

   task body Middle is
   begin
      delay 0.000020;
      Work (30);
      Put_Line ("middle");
   end Middle;

   task body High is
   begin
      delay 0.000015;
      Lock.Take;
      Put_Line ("high");
      Lock.Give;
   end High;
begin
   null;
end Main;
