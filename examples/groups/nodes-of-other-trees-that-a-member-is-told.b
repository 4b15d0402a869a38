p new element section
p append n0 n1
p new element i
p append n1 n2
p attach n1
p listen n1 e page log
p .
c1 new element div
c1 append m0 m1
c1 attach m1
c1 new element slot
c1 append m1 m2
c1 new element u
c1 append m1 m3
c1 listen m1 e host log
c1 listen m3 e at log
c1 listen m2 e slot log
c1 .
c1.1 new element p
c1.1 append m0 m1
c1.1 attach m1
c1.1 .
c1.1.1 micro a
c1.1.1 .
c1 dispatch m3 e bubbles composed
c1 dispatch m3 e bubbles composed related m2
c1 assigned m2
c1 docof m3
c1 docof m0
c1 .
p dispatch n2 e bubbles
p .
c1.1.1 dispatch m0 e composed
c1.1.1 .
