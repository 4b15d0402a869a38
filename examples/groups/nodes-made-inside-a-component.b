p new element div
p append n0 n1
p attach n1
p listen n1 e a log
p .
c1 new element section
c1 append m0 m1
c1 attach m1
c1 listen m1 e b log
c1 .
c1.1 new element i
c1.1 append m0 m1
c1.1 listen m1 e c log
c1.1 new element b
c1.1 new element slot
c1.1 new text "x"
c1.1 new comment "y"
c1.1 new fragment
c1.1 new element div
c1.1 new element u
c1.1 new text ""
c1.1 new element s
c1.1 new fragment
c1.1 dispatch m1 e composed
c1.1 dispatch m1 e composed related m0
c1.1 remove c1:m1
c1.1 .
c1 tree m0
c1 remove c1.1:m1
c1 attach m1
c1 .
c1.2 .
c1.0 .
p new element p
p attach n2
p .
c2 tree m0
c2 .
