p new element section
p append n0 n1
p attach n1
p .
c1 new element div
c1 new element p
c1 append m0 m1
c1 append m0 m2
c1 attach m1
c1 attach m2
c1 listen m0 e a log
c1 .
c1.2 dispatch m0 e bubbles composed
c1.2 .
