package Counters is
   type Counter is private;
   procedure Step (C : in out Counter);
private
   type Counter is range 0 .. 100;
end Counters;
package body Counters is
   procedure Step (C : in out Counter) is
   begin
      C := C + 1;
   end Step;
end Counters;
procedure Main is
begin
   null;
end Main;
