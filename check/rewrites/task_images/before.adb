with Ada.Task_Identification; use Ada.Task_Identification;
with Ada.Text_IO; use Ada.Text_IO;
procedure Main is
begin
   Put_Line (Image (Current_Task));
end Main;
