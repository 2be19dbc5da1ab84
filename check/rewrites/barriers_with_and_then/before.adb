procedure Main is
   protected Box is
      entry Get (X : out Integer);
   private
      Full : Boolean := False;
      Item : Integer := 0;
   end Box;
   protected body Box is
      entry Get (X : out Integer) when Full and then Item > 0 is
      begin
         X := Item;
         Full := False;
      end Get;
   end Box;
begin
   null;
end Main;
