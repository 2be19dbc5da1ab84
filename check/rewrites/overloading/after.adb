procedure Main is
   procedure Set_Number (X : Integer) is
   begin
      null;
   end Set_Number;
   procedure Set_Flag (B : Boolean) is
   begin
      null;
   end Set_Flag;
begin
   Set_Number (5);
end Main;
