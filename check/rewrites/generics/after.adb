package Buffers is
   Size : constant Positive := 8;
   N : Integer := Size;
end Buffers;
procedure Main is
begin
   null;
end Main;
