procedure Main is
   protected type Fork is
      entry Take;
      procedure Put;
   private
      Taken : Boolean := False;
   end Fork;
   protected body Fork is
      entry Take when not Taken is
      begin
         Taken := True;
      end Take;
      procedure Put is
      begin
         Taken := False;
      end Put;
   end Fork;
   Fork_0, Fork_1 : Fork;
   procedure Take (I : in Integer) is
   begin
      case I is
         when 0 => Fork_0.Take;
         when others => Fork_1.Take;
      end case;
   end Take;
begin
   for I in 0 .. 1 loop
      Take (I);
   end loop;
end Main;
