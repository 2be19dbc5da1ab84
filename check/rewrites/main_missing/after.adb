package Counters is
   N : Integer := 0;
end Counters;
procedure Main is
begin
   null;
end Main;
