procedure Main is
   Size : constant Integer := 10;
   protected Buffer is
      entry Put;
   private
      Count : Integer := 0;
   end Buffer;
   protected body Buffer is
      entry Put when Count < Size is
      begin
         Count := Count + 1;
      end Put;
   end Buffer;
begin
   Buffer.Put;
end Main;
