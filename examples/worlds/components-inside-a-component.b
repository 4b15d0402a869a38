p new element div
p append n0 n1
p attach n1
p listen n1 ping page log
p new text "x"
p append n1 n2
p .
c1 new element b
c1 append m0 m1
c1 dispatch m1 ping bubbles composed
c1 .
p tree n1
p connected n2
p shadow-root n1
p new element p
p attach n3
p .
