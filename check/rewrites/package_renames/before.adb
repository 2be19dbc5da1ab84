with Ada.Real_Time;
procedure Main is
   package RT renames Ada.Real_Time;
   T : RT.Time := RT.Clock;
begin
   null;
end Main;
