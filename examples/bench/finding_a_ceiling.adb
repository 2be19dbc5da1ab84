procedure Main is
   protected Journal with Priority => 8 is
      procedure Note (Item : in Integer);
   private
      Last : Integer := 0;
   end Journal;

   protected Valve with Priority => 30 is
      procedure Move (Steps : in Positive);
   end Valve;

   task Monitor with Priority => 5;
   task Control with Priority => 10;
   task Alarm with Priority => 20;

   protected body Journal is
      procedure Note (Item : in Integer) is
      begin
         Last := Item;
      end Note;
   end Journal;

   protected body Valve is
      procedure Move (Steps : in Positive) is
      begin
         for Step in 1 .. Steps loop
            null;
         end loop;
         Journal.Note (Steps);
      end Move;
   end Valve;

   task body Monitor is
   begin
      delay 0.000020;
      Valve.Move (20);
   end Monitor;

   task body Control is
   begin
      delay 0.000100;
      Valve.Move (2);
      Journal.Note (0);
   end Control;

   task body Alarm is
   begin
      delay 0.000030;
      null;
   end Alarm;
begin
   null;
end Main;
