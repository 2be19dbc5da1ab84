procedure Main is
   protected type Fork is
      entry Take;
      procedure Put;
   private
      Taken : Boolean := False;
   end Fork;
   protected body Fork is
      entry Take when not Taken is
      begin
         Taken := True;
      end Take;
      procedure Put is
      begin
         Taken := False;
      end Put;
   end Fork;
   type Set is array (0 .. 1) of Fork;
   Forks : Set;
begin
   for I in 0 .. 1 loop
      Forks (I).Take;
   end loop;
end Main;
