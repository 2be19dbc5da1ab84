procedure Main is
   protected Lock is
      procedure Take;
   private
      Taken : Boolean := False;
   end Lock;
   protected body Lock is
      procedure Take is
      begin
         Taken := True;
      end Take;
   end Lock;
begin
   select
      Lock.Take;
   or
      delay 1.0;
   end select;
end Main;
