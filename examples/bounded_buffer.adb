with Ada.Text_IO; use Ada.Text_IO;
procedure Main is
   type Items is array (0 .. 1) of Integer;

   protected Buffer with Priority => 20 is
      entry Put (Item : in Integer);
      entry Get (Item : out Integer);
   private
      Store : Items;
      First : Natural := 0;
      Count : Natural := 0;
   end Buffer;

   task Producer with Priority => 12;
   task Consumer with Priority => 10;

   protected body Buffer is
      entry Put (Item : in Integer) when Count < 2 is
      begin
         Store ((First + Count) mod 2) := Item;
         Count := Count + 1;
      end Put;

      entry Get (Item : out Integer) when Count > 0 is
      begin
         Item := Store (First);
         First := (First + 1) mod 2;
         Count := Count - 1;
      end Get;
   end Buffer;

   task body Producer is
   begin
      for Number in 1 .. 3 loop
         Buffer.Put (Number);
      end loop;
   end Producer;

   task body Consumer is
      Number : Integer;
   begin
      for Turn in 1 .. 3 loop
         Buffer.Get (Number);
         Put_Line ("got" & Integer'Image (Number));
      end loop;
   end Consumer;
begin
   null;
end Main;
