with Ada.Text_IO; use Ada.Text_IO;
procedure Main is
   type Block is array (1 .. 4_096) of Integer;
   Depth : Natural;

   procedure Deeper is
      Room : Block;
   begin
      Depth := Depth + 1;
      Deeper;
   end Deeper;
begin
   for Attempt in 1 .. 2 loop
      Depth := 0;
      begin
         Deeper;
      exception
         when Storage_Error =>
            Put_Line ("no room in level" & Integer'Image (Depth));
      end;
   end loop;
end Main;
