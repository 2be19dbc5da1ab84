with Ada.Text_IO; use Ada.Text_IO;
procedure Main is
   task Server with Priority => 5 is
      entry Double (Value : in out Integer);
   end Server;

   task Middle with Priority => 10;
   task Client with Priority => 20;

   procedure Work (Turns : in Positive) is
   begin
      for Turn in 1 .. Turns loop
         null;
      end loop;
   end Work;

   task body Server is
   begin
      accept Double (Value : in out Integer) do
         Work (10);
         Value := 2 * Value;
      end Double;
      Put_Line ("server");
   end Server;

   task body Middle is
   begin
      delay 0.000025;
      Work (10);
      Put_Line ("middle");
   end Middle;

   task body Client is
      Number : Integer := 21;
   begin
      delay 0.000010;
      Server.Double (Number);
      Put_Line ("client:" & Integer'Image (Number));
   end Client;
begin
   null;
end Main;
