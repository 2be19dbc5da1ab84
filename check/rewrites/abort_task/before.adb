with Ada.Task_Identification; use Ada.Task_Identification;
procedure Main is
   task T;
   task body T is
   begin
      delay 1.0;
   end T;
begin
   Abort_Task (T'Identity);
end Main;
