with Ada.Text_IO; use Ada.Text_IO;
procedure Main is
   Root : Integer := 1;

   procedure Improve is
   begin
      for Turn in 1 .. 15 loop
         Root := (Root + 1_000_000 / Root) / 2;
      end loop;
   end Improve;
begin
   select
      delay 0.000050;
      Put_Line ("stopped at" & Integer'Image (Root));
   then abort
      Improve;
      Put_Line ("ended with" & Integer'Image (Root));
   end select;

   Root := 1;
   select
      delay 0.000100;
      Put_Line ("stopped at" & Integer'Image (Root));
   then abort
      Improve;
      Put_Line ("ended with" & Integer'Image (Root));
   end select;
end Main;
