# One sort for trays under any rights. It needs to read the calls and no more, and whatever else its caller may do with
# them is as it was when they come back sorted: here once trays of calls that may only be read, once of drafts that may be
# amended too. Each call settles ?R by the declared type of its actual, and exchange by the ?R of sort.
#
# expect: accepted 0 0
# reads: 4 14 9 22 11 3 30 12 25
# put: 9 11 14 22 12 25 30 0
# stop: 11 done
# at: return

type call{read,amend} (length: integer)

qual calls = tray[call{read}]{fetch,store,size}
qual drafts = tray[call{read,amend}]{fetch,store,size}

procedure main
    variable count, first, length: integer
    variable calls: calls
    variable drafts: drafts
    variable draft: call{read,amend}

    take count
    call calls <- read_calls(count)
    call sort(calls)                    # ?R is call{read}
    call show(calls)
    take count
    call drafts <- read_drafts(count)
    call sort(drafts)                   # ?R is call{read,amend}
    call show(drafts)
    set first := 0
    fetch draft <- drafts[first]        # may be amended as before
    call amend(draft)
    call length <- length_of(draft)
    put length
    return

# Exchanges pairs until they are in order.
procedure sort for ?R >= call{read}
    formal items: tray[?R]{fetch,store,size}
    variable i, j, count, one: integer
    variable left, right: ?R
    variable left_length, right_length, test: integer

    size count <- items
    set one := 1
    set i := 0
outer:
    less test := i < count
    jumpzero test, sorted
    add j := i + one
inner:
    less test := j < count
    jumpzero test, next
    fetch left <- items[i]
    fetch right <- items[j]
    call left_length <- length_of(left)         # ?R has read, whatever it is
    call right_length <- length_of(right)
    less test := right_length < left_length
    jumpzero test, in_order
    call exchange(items, i, j)                  # ?R of exchange is that of sort
in_order:
    add j := j + one
    set test := 0
    jumpzero test, inner
next:
    add i := i + one
    set test := 0
    jumpzero test, outer
sorted:
    return

# Needs no right to what it exchanges.
procedure exchange for ?R >= call{}
    formal items: tray[?R]{fetch,store}
    formal i, j: integer
    variable left, right: ?R
    fetch left <- items[i]
    fetch right <- items[j]
    store items[i] <- right
    store items[j] <- left
    return

# Puts the lengths.
procedure show for ?R >= call{read}
    formal items: tray[?R]{fetch,size}
    variable i, count, one, length, test: integer
    variable item: ?R
    size count <- items
    set one := 1
    set i := 0
next:
    less test := i < count
    jumpzero test, shown
    fetch item <- items[i]
    call length <- length_of(item)
    put length
    add i := i + one
    set test := 0
    jumpzero test, next
shown:
    return

# Takes lengths and makes a call of each. No value becomes ?R but one that is: the tray is made for these calls.
procedure read_calls gives calls
    formal count: integer
    variable made: calls
    variable i, one, length, test: integer
    variable item: call{read}
    newtray made[count]
    set one := 1
    set i := 0
next:
    less test := i < count
    jumpzero test, filled
    take length
    call item <- new_call(length)
    store made[i] <- item
    add i := i + one
    set test := 0
    jumpzero test, next
filled:
    return made

procedure read_drafts gives drafts
    formal count: integer
    variable made: drafts
    variable i, one, length, test: integer
    variable draft: call{read,amend}
    newtray made[count]
    set one := 1
    set i := 0
next:
    less test := i < count
    jumpzero test, filled
    take length
    call draft <- new_call(length)
    store made[i] <- draft
    add i := i + one
    set test := 0
    jumpzero test, next
filled:
    return made

procedure new_call of call gives call{read,amend}
    formal length: integer
    variable made: call{open,read,amend}
    newrecord made
    setslot made.length <- length
    return made

procedure length_of of call gives integer
    formal item: call{read} as call{open,read}
    variable length: integer
    getslot length <- item.length
    return length

procedure amend of call
    formal target: call{amend} as call{open}
    variable length: integer
    set length := 0
    setslot target.length <- length
    return
