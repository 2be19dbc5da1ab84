package Jobs is
   procedure Work;
end Jobs;
package body Jobs is
   procedure Work is
   begin
      null;
   end Work;
end Jobs;
with Jobs;
procedure Main is
begin
   Jobs.Work;
end Main;
