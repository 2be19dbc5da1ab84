with Ada.Text_IO; use Ada.Text_IO;
procedure Main is
   task Adder with Priority => 20 is
      entry Add (Amount : in Integer; Total : out Integer);
   end Adder;

   task Printer with Priority => 20 is
      entry Print (Number : in Integer);
   end Printer;

   task body Adder is
      Sum : Integer := 0;
   begin
      loop
         select
            accept Add (Amount : in Integer; Total : out Integer) do
               Sum := Sum + Amount;
               Total := Sum;
            end Add;
            Printer.Print (Sum);
         or
            terminate;
         end select;
      end loop;
   end Adder;

   task body Printer is
   begin
      loop
         select
            accept Print (Number : in Integer) do
               Put_Line ("total" & Integer'Image (Number));
            end Print;
         or
            terminate;
         end select;
      end loop;
   end Printer;

   Total : Integer;
begin
   Adder.Add (5, Total);
   Put_Line ("main ends");
end Main;
