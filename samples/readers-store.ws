# The reader of samples/readers.ws, but its tray has store: the incident once more. Were the call let through, the sealed
# call that it stores as a result would come back, amendable, by way of the caller's drafts. So where the tray that is
# needed has store, the elements must be equal.
#
# expect: refused 8 90
# at: call seal(drafts)
# watch: 18 mixed sample

type call{read,amend} (length: integer)

qual results = tray[call{read}]{fetch,store}
qual drafts  = tray[call{read,amend}]{fetch,store}

procedure main
    variable first: integer
    variable drafts: drafts
    variable forged: call{read,amend}

    set first := 1
    newtray drafts[first]
    call seal(drafts)                           # refused: what seal needs has store, and the elements are not equal
    set first := 0
    fetch forged <- drafts[first]               # a sealed call, amendable
    return

procedure seal
    formal results: results
    variable first: integer
    variable sealed: call{read}

    set first := 0
    call sealed <- new_call()
    store results[first] <- sealed
    return

procedure new_call of call gives call{read}
    variable made: call{open,read}
    newrecord made
    return made
