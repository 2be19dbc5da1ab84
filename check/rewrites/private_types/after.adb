package Counters is
   subtype Counter is Integer range 0 .. 100;
   procedure Step (C : in out Counter);
end Counters;
package body Counters is
   procedure Step (C : in out Counter) is
   begin
      C := C + 1;
   end Step;
end Counters;
procedure Main is
begin
   null;
end Main;
