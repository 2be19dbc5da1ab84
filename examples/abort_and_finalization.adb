with Ada.Finalization; use Ada.Finalization;
package Files is
   type File is new Limited_Controlled with record
      Number : Integer := 0;
   end record;
   overriding procedure Initialize (Object : in out File);
   overriding procedure Finalize (Object : in out File);
end Files;

with Ada.Text_IO; use Ada.Text_IO;
package body Files is
   Opened : Integer := 0;

   procedure Initialize (Object : in out File) is
   begin
      Opened := Opened + 1;
      Object.Number := Opened;
      Put_Line ("open" & Integer'Image (Opened));
   end Initialize;

   procedure Finalize (Object : in out File) is
   begin
      Put_Line ("close" & Integer'Image (Object.Number));
   end Finalize;
end Files;

with Ada.Text_IO; use Ada.Text_IO;
with Files; use Files;
procedure Main is
   task Worker with Priority => 10;

   task body Worker is
      Source, Target : File;
   begin
      delay 1.0;
      Put_Line ("not reached");
   end Worker;
begin
   delay 0.000010;
   abort Worker;
   Put_Line ("aborted");
end Main;
