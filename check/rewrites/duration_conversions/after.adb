procedure Main is
   N : Integer := 5;
begin
   delay 0.001 * N;
end Main;
