# The honest sorter. Takes a number of calls and the repeat length of each, sorts the calls by their lengths, and puts
# the lengths. Only the module of the type call opens a call; main and the sorting procedure have the right to read, and
# no other.
#
# expect: accepted 0 0
# reads: 5 14 9 22 9 11
# put: 9 9 11 14 22
# stop: 11 done
# at: return

type call{read,amend} (length: integer)

# Without these lines the types would be numbered where they are first used.
qual number = integer
qual readable = call{read}
qual opened = call{open,read}
qual calls = tray[readable]{fetch,store,size}

procedure main
    variable count, i, one, length: integer
    variable item: call{read}
    variable calls: calls
    variable test: integer

    take count
    newtray calls[count]
    set one := 1
    set i := 0
fill:
    less test := i < count
    jumpzero test, filled
    take length
    call item <- new_call(length)
    store calls[i] <- item
    add i := i + one
    set test := 0
    jumpzero test, fill
filled:
    call sort(calls)
    set i := 0
show:
    less test := i < count
    jumpzero test, shown
    fetch item <- calls[i]
    call length <- length_of(item)
    put length
    add i := i + one
    set test := 0
    jumpzero test, show
shown:
    return

# A new call of this length, less open and amend.
procedure new_call of call gives call{read}
    formal length: integer
    variable made: call{open,read}
    newrecord made
    setslot made.length <- length
    return made

# The length of a call that may be read.
procedure length_of of call gives integer
    formal item: call{read} as call{open,read}
    variable length: integer
    getslot length <- item.length
    return length

# Exchanges pairs until they are in order.
procedure sort
    formal calls: calls
    variable count, i, j, one: integer
    variable left, right: call{read}
    variable left_length, right_length, test: integer

    size count <- calls
    set one := 1
    set i := 0
outer:
    less test := i < count
    jumpzero test, sorted
    add j := i + one
inner:
    less test := j < count
    jumpzero test, next
    fetch left <- calls[i]
    fetch right <- calls[j]
    call left_length <- length_of(left)
    call right_length <- length_of(right)
    less test := right_length < left_length
    jumpzero test, in_order
    store calls[i] <- right
    store calls[j] <- left
in_order:
    add j := j + one
    set test := 0
    jumpzero test, inner
next:
    add i := i + one
    set test := 0
    jumpzero test, outer
sorted:
    return
