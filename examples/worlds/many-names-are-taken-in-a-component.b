p new element div
p append n0 n1
p attach n1
p new element section
p append n1 n2
p attach n2
p new text "one"
p append n2 n3
p range-new
p range-start r0 n3 1
p iter-new n0 all
p walk-new n0 element
p observer
p .
p new element p
p append n1 n4
p range-new
p range-get r0
p range-get r1
p range-get r2
p iter-new n4 all
p walk-new n0 all
p observer
p new fragment
p document
p new comment ""
p attach n4
p tree n0
p tree n8
p .
c3 micro alone
p split n3 1
p iter-next i0
p iter-next i0
p walk w0 first
p range-new
p range-end r2 n2 2
p range-text r2
p range-start r2 n3 0
p extract r2
p tree n9
p tree n0
p text n2 "two"
p children n2
p micro end
p .
p observer
