with System;
procedure Main is
   task T with Priority => System.Default_Priority + 1;
   task body T is
   begin
      null;
   end T;
begin
   null;
end Main;
