p new element div
p append n0 n1
p attach n1
p new element p
p append n1 n2
p attach n2
p listen n2 tick a log
p listen n0 tick b log capture
p micro first
p .
p new text "t"
p append n1 n3
p micro second
p observer
p observe o0 n1 childList
p remove n3
p .
p .
c1 micro only
p tree n9
p nonsense
p append m0 n1
p .
c2 dispatch m0 tick composed
p parent n3
p micro third
p .
c2 micro late
c2 dispatch m0 tick cancelable composed
p append n1 n3
p .
