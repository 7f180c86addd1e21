% Each number has a half, rounded down.
tff(goal,conjecture,![X: $int]: ?[Y: $int]: ($lesseq($product(2,Y),X) & $less(X,$sum($product(2,Y),2)))).
