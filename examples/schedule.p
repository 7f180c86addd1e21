% Three jobs, one after the other: a takes 3 hours, b takes 4 and c takes 2, and all is to end 8 hours after a began.
tff(a_type,type,a: $int).
tff(b_type,type,b: $int).
tff(c_type,type,c: $int).
tff(b_after_a,axiom,$lesseq($sum(a,3),b)).
tff(c_after_b,axiom,$lesseq($sum(b,4),c)).
tff(in_time,axiom,$lesseq($sum(c,2),$sum(a,8))).
