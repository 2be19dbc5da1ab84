procedure Main is
   protected Go is
      procedure Set_True;
      entry Suspend_Until_True;
   private
      Open : Boolean := False;
   end Go;
   protected body Go is
      procedure Set_True is
      begin
         Open := True;
      end Set_True;
      entry Suspend_Until_True when Open is
      begin
         Open := False;
      end Suspend_Until_True;
   end Go;
begin
   Go.Set_True;
   Go.Suspend_Until_True;
end Main;
