procedure Main is
   protected Flag is
      function Is_Up return Boolean;
   private
      Up : Boolean := True;
   end Flag;
   protected body Flag is
      function Is_Up return Boolean is
      begin
         return Up;
      end Is_Up;
   end Flag;
begin
   if Flag.Is_Up then
      null;
   end if;
end Main;
