package Jobs is
   procedure Work;
end Jobs;
with Jobs;
procedure Main is
begin
   Jobs.Work;
end Main;
