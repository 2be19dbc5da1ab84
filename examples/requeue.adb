with Ada.Text_IO; use Ada.Text_IO;
procedure Main with Priority => 15 is
   protected Store with Priority => 20 is
      entry Take (Wanted : in Positive);
      entry Later (Wanted : in Positive);
      procedure Bring (Brought : in Positive);
   private
      Stock  : Natural := 3;
      To_Ask : Natural := 0;
   end Store;

   task Large with Priority => 12;
   task Small with Priority => 10;

   protected body Store is
      entry Take (Wanted : in Positive) when Stock > 0 is
      begin
         if Wanted > Stock then
            requeue Later;
         end if;
         Stock := Stock - Wanted;
      end Take;

      entry Later (Wanted : in Positive) when To_Ask > 0 is
      begin
         To_Ask := To_Ask - 1;
         if Wanted > Stock then
            requeue Later;
         end if;
         Stock := Stock - Wanted;
      end Later;

      procedure Bring (Brought : in Positive) is
      begin
         Stock := Stock + Brought;
         To_Ask := Later'Count;
      end Bring;
   end Store;

   task body Large is
   begin
      Store.Take (5);
      Put_Line ("large");
   end Large;

   task body Small is
   begin
      Store.Take (2);
      Put_Line ("small");
   end Small;
begin
   delay 0.000040;
   Store.Bring (1);
   delay 0.000040;
   Store.Bring (3);
end Main;
