package Counters is
   Limit : constant Integer := 10;
end Counters;
procedure Main is
begin
   null;
end Main;
