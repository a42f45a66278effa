# Sorts calls into repeat lengths: takes a number of lengths, a number of calls and the length of each call, and puts
# how many calls there are of each length from 0 on. The sorting procedure may read a call, and do nothing else with it.
#
# expect: accepted 0 0
# reads: 4   6   2 0 3 2 2 0
# put: 2 0 3 1
# stop: 11 done
# at: return

type call{read} (length: integer)

procedure main
    variable calls: tray[call{read}]{fetch,store,size}
    variable counts: tray[integer]{fetch,store,size}
    variable lengths, count, i, one, zero, test, length: integer
    variable item: call{read}

    set zero := 0
    set one := 1
    take lengths
    newtray counts[lengths]
    set i := 0
clear:
    less test := i < lengths
    jumpzero test, cleared
    store counts[i] <- zero
    add i := i + one
    jumpzero zero, clear
cleared:
    take count
    newtray calls[count]
    set i := 0
fill:
    less test := i < count
    jumpzero test, filled
    take length
    call item <- new_call(length)
    store calls[i] <- item
    add i := i + one
    jumpzero zero, fill
filled:
    call sort(calls, counts)
    set i := 0
show:
    less test := i < lengths
    jumpzero test, shown
    fetch length <- counts[i]
    put length
    add i := i + one
    jumpzero zero, show
shown:
    return

procedure new_call of call gives call{read}
    formal length: integer
    variable made: call{open,read}
    newrecord made
    setslot made.length <- length
    return made

procedure length_of of call gives integer
    formal item: call{read} as call{open}
    variable length: integer
    getslot length <- item.length
    return length

# Counts each call under its length.
procedure sort
    formal calls: tray[call{read}]{fetch,store,size}
    formal counts: tray[integer]{fetch,store,size}
    variable calls_to_read: tray[call{read}]{fetch,size}
    variable count, i, one, zero, test, length, so_far: integer
    variable item: call{read}

    bind calls_to_read <- calls     # all that is needed from here on
    size count <- calls_to_read
    set zero := 0
    set one := 1
    set i := 0
next:
    less test := i < count
    jumpzero test, sorted
    fetch item <- calls_to_read[i]
    call length <- length_of(item)
    fetch so_far <- counts[length]
    add so_far := so_far + one
    store counts[length] <- so_far
    add i := i + one
    jumpzero zero, next
sorted:
    return
