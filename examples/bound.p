% Two numbers that are not small have a sum that is not small.
tff(x_type,type,x: $int).
tff(y_type,type,y: $int).
tff(x_low,axiom,$greatereq(x,3)).
tff(y_low,axiom,$greater(y,3)).
tff(goal,conjecture,$greatereq($sum(x,y),7)).
