% Thirty-one in coins of five and of three, with at least one of the first and two of the second.
tff(fives_type,type,fives: $int).
tff(threes_type,type,threes: $int).
tff(total,axiom,$sum($product(5,fives),$product(3,threes)) = 31).
tff(some_fives,axiom,$greatereq(fives,1)).
tff(some_threes,axiom,$greatereq(threes,2)).
