Maximize
obj: 3 x1 + 2 x2
Subject To
r1: 1 x1 + 1 x2 <= 4
r2: 1 x1 + 3 x2 <= 6
r3: - 1 x1 <= -1
End
