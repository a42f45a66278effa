# Stop 11, done: main's first frame returns. What is still left of the reads does not matter.
#
# expect: accepted 0 0
# reads: 41 7
# put: 42
# stop: 11 done
# at: return

procedure main
    variable answer, one: integer
    take answer
    set one := 1
    add answer := answer + one
    put answer
    return
