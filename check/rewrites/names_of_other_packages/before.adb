package Counters is
   N : Integer := 0;
end Counters;
with Counters;
procedure Main is
begin
   N := 5;
end Main;
