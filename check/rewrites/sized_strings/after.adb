procedure Main is
   type Codes is array (1 .. 10) of Integer;
   Name : Codes;
begin
   Name (1) := 32;
end Main;
