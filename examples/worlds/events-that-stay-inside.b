p new element div
p append n0 n1
p attach n1
p listen n1 e a log
p listen n0 e d log
p listen n0 e h log capture
p new element section
p append n1 n2
p attach n2
p listen n2 e s log
p listen n2 e o log once
p listen n1 f w cancel
p .
c1 dispatch m0 e bubbles composed
c1 dispatch m0 e cancelable composed
c1 dispatch m0 e bubbles
c2 new text "x"
c2 append m0 m1
c2 dispatch m1 e composed
p dispatch n2 e bubbles composed related n1
p dispatch n2 e composed related n2
p .
c1 dispatch m0 f cancelable composed
c1 dispatch m0 e bubbles composed
p remove n2
p .
c2 dispatch m0 e bubbles composed
p unlisten n0 e h capture
p .
c1 dispatch m0 e composed
