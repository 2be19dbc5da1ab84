procedure Main is
   protected Gate is
      procedure Open;
   private
      procedure Check;
      Is_Open : Boolean := False;
   end Gate;
   protected body Gate is
      procedure Check is
      begin
         null;
      end Check;
      procedure Open is
      begin
         Check;
         Is_Open := True;
      end Open;
   end Gate;
begin
   Gate.Open;
end Main;
