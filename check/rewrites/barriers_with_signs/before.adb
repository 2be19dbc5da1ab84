procedure Main is
   protected Buffer is
      entry Put;
   private
      Count : Integer := 0;
   end Buffer;
   protected body Buffer is
      entry Put when Count + 1 <= 10 is
      begin
         Count := Count + 1;
      end Put;
   end Buffer;
begin
   Buffer.Put;
end Main;
