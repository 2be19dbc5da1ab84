with Ada.Text_IO; use Ada.Text_IO;
procedure Main is
   function Square (X : Integer) return Integer is
   begin
      return X * X;
   end Square;
   Y : Integer;
begin
   Y := Square (3);
   Put_Line (Integer'Image (Y));
end Main;
