p new element section
p append n0 n1
p attach n1
p listen n1 e page log
p .
c1 new element section
c1 append m0 m1
c1 attach m1
c1 listen m1 e host log
c1 new element slot
c1 append m1 m2
c1 listen m2 slotchange s log
c1 .
c1.1 new element slot
c1.1 append m0 m1
c1.1 listen m1 slotchange x log capture
c1.1 .
p new element b
p append n1 n2
p .
