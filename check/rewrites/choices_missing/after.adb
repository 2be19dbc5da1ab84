procedure Main is
   type Phase is (Idle, Busy, Done);
   P : Phase := Idle;
begin
   case P is
      when Idle => P := Busy;
      when Busy => P := Done;
      when others => null;
   end case;
end Main;
