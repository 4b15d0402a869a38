p new element div
p append n0 n1
p new element b
p append n1 n2
p attach n1
p listen n1 click heard log
p .
c1 new element slot
c1 append m0 m1
c1 new element ul
c1 new element li
c1 append m0 m2
c1 append m2 m3
c1 listen m2 press own log
c1 dispatch m3 press bubbles
c1 dispatch m3 click bubbles composed
c1 listen m0 click other stop-now
c1 .
p dispatch n2 click bubbles
