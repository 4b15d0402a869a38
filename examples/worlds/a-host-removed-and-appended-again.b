p new element main
p append n0 n1
p new element div
p append n1 n2
p attach n2
p new element b
p append n2 n3
p new element i
p set n4 slot "s"
p append n2 n4
p new element p
p append n4 n5
p attach n5
p observer
p observe o0 n0 childList subtree
p listen n1 e a log
p listen n2 e b log
p listen n2 slotchange z log
p iter-new n0 all
p iter-next i0
p iter-next i0
p iter-next i0
p range-new
p range-end r0 n1 1
p range-start r0 n2 1
p range-get r0
p .
p remove n2
p connected n3
p range-get r0
p iter-at i0
p tree n0
p .
c2 dispatch m0 e bubbles composed
p append n1 n2
p connected n3
p .
c1 dispatch m0 e bubbles composed
p insert n2 n4 n3
p .
p document
p append n6 n1
p docof n3
p docof n5
p .
c2 new element u
c2 append m0 m1
c2 dispatch m1 e bubbles composed
p remove n1
p append n0 n1
p append n1 n2
p iter-next i0
p tree n0
p .
