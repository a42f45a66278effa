# Stop 17, bench full: a recursion without an end opens frames until the memory has no room for another. A frame of
# deeper takes 4 words, its two variables and two more; main's takes 3.
#
# expect: accepted 0 0
# memory: 20
# put: 1 2 3 4
# stop: 17 bench full
# at: call deeper(level)

procedure main
    variable level: integer
    set level := 1
    call deeper(level)
    return

procedure deeper
    formal level: integer
    variable one: integer
    put level
    set one := 1
    add level := level + one
    call deeper(level)
    return
