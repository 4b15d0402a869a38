p new element section
p append n0 n1
p attach n1
p .
c1 new element div
c1 append m0 m1
c1 new element b
c1 append m0 m2
c1 attach m1
c1 .
c1.1 new element slot
c1.1 append m0 m1
c1.1 listen m1 e a log
c1.1 .
c1 dispatch m2 e bubbles composed
c1 .
