procedure Main is
   protected Gate is
      entry Pass;
   private
      Open : Boolean := False;
   end Gate;
   protected body Gate is
      entry Pass when Pass'Count = 3 or Open is
      begin
         Open := Pass'Count > 0;
      end Pass;
   end Gate;
begin
   null;
end Main;
