procedure Main is
   Name : String (1 .. 10);
begin
   Name (1) := ' ';
end Main;
