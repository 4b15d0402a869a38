p new element section
p append n0 n1
p attach n1
p new element div
p append n1 n2
p attach n2
p .
c1 new element slot
c1 append m0 m1
c1 listen m1 e s log
c1 .
c2 new element i
c2 append m0 m1
c2 listen m1 e x stop
c2 dispatch m1 e bubbles composed
c2 .
