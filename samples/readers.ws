# Reading trays. The reader of results holds a tray without store: nothing goes into it by that name, so what it is given
# may have elements with more rights than it asks (document 02, S-3). The caller goes on storing amendable calls through
# its own name, and the reader sees them; what it fetches it may read and not amend, as its own type says.
#
# expect: accepted 0 0
# reads: 14 9 22
# put: 14 9 14 22
# stop: 11 done
# at: return

type call{read,amend} (length: integer)

qual results = tray[call{read}]{fetch,size}                     # to read
qual drafts  = tray[call{read,amend}]{fetch,store,size}         # to read and amend, and to store into

procedure main
    variable count, first, second: integer
    variable drafts: drafts
    variable draft: call{read,amend}
    variable length: integer

    set count := 2
    set first := 0
    set second := 1
    newtray drafts[count]
    take length
    call draft <- new_call(length)
    store drafts[first] <- draft
    take length
    call draft <- new_call(length)
    store drafts[second] <- draft
    call show(drafts)                           # drafts, read as results
    take length
    call amend(draft, length)
    store drafts[second] <- draft               # stored by the name that has store
    call show(drafts)                           # and read again
    return

# Puts the lengths of results.
procedure show
    formal results: results
    variable i, count, one, length, test: integer
    variable item: call{read}

    size count <- results
    set one := 1
    set i := 0
next:
    less test := i < count
    jumpzero test, shown
    fetch item <- results[i]                    # amend stays behind
    call length <- length_of(item)
    put length
    add i := i + one
    set test := 0
    jumpzero test, next
shown:
    return

procedure new_call of call gives call{read,amend}
    formal length: integer
    variable made: call{open,read,amend}
    newrecord made
    setslot made.length <- length
    return made

procedure length_of of call gives integer
    formal item: call{read} as call{open,read}
    variable length: integer
    getslot length <- item.length
    return length

procedure amend of call
    formal target: call{amend} as call{open}
    formal length: integer
    setslot target.length <- length
    return
