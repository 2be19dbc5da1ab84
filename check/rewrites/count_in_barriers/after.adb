procedure Main is
   protected Gate is
      entry Pass;
      entry Leave;
   private
      Arrived : Integer := 0;
      Open : Boolean := False;
   end Gate;
   protected body Gate is
      entry Pass when not Open is
      begin
         Arrived := Arrived + 1;
         Open := Arrived = 3;
         requeue Leave;
      end Pass;
      entry Leave when Open is
      begin
         Open := Leave'Count > 0;
         Arrived := Arrived - 1;
      end Leave;
   end Gate;
begin
   null;
end Main;
