package Plant is
   N : Integer := 0;
end Plant;
package Plant.Pumps is
   M : Integer := 0;
end Plant.Pumps;
procedure Main is
begin
   null;
end Main;
