# Stop 15, reads ended: adds up the reads, and finds none where it takes the next.
#
# expect: accepted 0 0
# reads: 4 5 6
# put: 4 9 15
# stop: 15 reads ended
# at: take next

procedure main
    variable sum, next, zero: integer
    set sum := 0
    set zero := 0
again:
    take next
    add sum := sum + next
    put sum
    jumpzero zero, again
    return
