package Counters is
   procedure Step;
end Counters;
package body Counters is
   procedure Step is
   begin
      null;
   end Step;
end Counters;
procedure Main is
begin
   null;
end Main;
