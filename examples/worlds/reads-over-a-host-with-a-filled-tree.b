p new element div
p append n0 n1
p attach n1
p new element b
p set n2 class "k"
p append n1 n2
p new text "abc"
p append n2 n3
p new element p
p append n1 n4
p attach n4
p new text "def"
p append n4 n5
p query n0 "*"
p .
p query n0 ".k"
p query n0 "*"
p query n1 "b, p"
p query n1 "slot"
p query n4 "*"
p matches n4 "b + p:last-child"
p matches n2 "div > b:first-child"
p children n1
p children n4
p contains n1 n5
p contains n5 n1
p range-new
p range-start r0 n3 1
p range-end r0 n5 2
p range-text r0
p iter-new n0 all
p iter-next i0
p iter-next i0
p iter-next i0
p iter-next i0
p iter-next i0
p iter-next i0
p iter-next i0
p .
p walk-new n0 element
p walk w0 first
p walk w0 last
p walk w0 previous-sibling
p walk w0 first
p walk w0 next
p walk w0 next
p walk w0 parent
p tree n0
p shadow-root n1
p shadow-root n2
p slot-of n2
p slot-of n5
p docof n5
p parent n1
p connected n5
p extract r0
p tree n6
p range-get r0
p insert-node r0 n6
p range-get r0
p tree n1
p .
c2 new element slot
c2 append m0 m1
p attach n9
p attach n4
p query n1 "p"
p range-text r0
p iter-prev i0
p iter-prev i0
p iter-prev i0
p normalize n1
p text n4 "new"
p children n4
p .
p tree n9
