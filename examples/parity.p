% No even number is odd.
tff(goal,conjecture,![X: $int, Y: $int]: $product(2,X) != $sum($product(2,Y),1)).
