p new element div
p append n0 n1
p new element a
p append n1 n2
p attach n1
p listen n0 e i log capture
p listen n2 e t log
p listen n1 e j log capture
p .
c1 new element slot
c1 new element div
c1 append m0 m2
c1 append m2 m1
c1 attach m2
c1 .
c1.1 new element slot
c1.1 append m0 m1
c1.1 .
c1.1 listen m1 e x stop-now capture
c1.1 .
p dispatch n2 e bubbles
