with Ada.Text_IO; use Ada.Text_IO;
procedure Main is
   subtype Degree is Integer range -50 .. 150;
   Too_Cold : exception;

   function Checked (Value : in Integer) return Degree is
      Result : Degree;
   begin
      if Value < -40 then
         raise Too_Cold;
      end if;
      Result := Value;
      return Result;
   exception
      when Constraint_Error =>
         Put_Line ("out of range");
         return 150;
   end Checked;

   procedure Show (Value : in Integer) is
      Shown : Degree;
   begin
      Shown := Checked (Value);
      Put_Line ("shown" & Integer'Image (Shown));
   exception
      when others =>
         Put_Line ("not shown");
         raise;
   end Show;
begin
   Show (20);
   Show (999);
   Show (-45);
   Put_Line ("not reached");
exception
   when Too_Cold =>
      Put_Line ("too cold");
end Main;
