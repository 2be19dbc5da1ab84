with Jobs;
procedure Main is
begin
   Jobs.Work;
end Main;
