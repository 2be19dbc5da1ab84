package Counters is
   N : Integer := 0;
end Counters;
