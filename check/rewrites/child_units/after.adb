package Plant is
   N : Integer := 0;
end Plant;
with Plant;
package Pumps is
   M : Integer := 0;
end Pumps;
procedure Main is
begin
   null;
end Main;
