generic
   Size : Positive;
package Buffers is
   N : Integer := Size;
end Buffers;
procedure Main is
begin
   null;
end Main;
