procedure Main is
   N : Integer := 5;
begin
   delay Duration (N) * 0.001;
end Main;
