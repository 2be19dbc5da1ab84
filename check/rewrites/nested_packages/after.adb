package Counter is
   N : Integer := 0;
end Counter;
with Counter;
procedure Main is
begin
   Counter.N := 1;
end Main;
