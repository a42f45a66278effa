# The incident of the tender. A tray of amendable calls is bound to a variable for trays of read-only calls. Were that
# let through, a read-only call stored by way of calls_to_read would come back, amendable, by way of calls, and be
# amended. So where a variable has store, the elements must be equal, and a subset of rights is not enough.
#
# expect: refused 8 118
# at: bind calls_to_read <- calls
# watch: 18 mixed sample

type call{read,amend} (length: integer)

procedure main
    variable first, length: integer
    variable calls: tray[call{read,amend}]{fetch,store}
    variable calls_to_read: tray[call{read}]{fetch,store}
    variable sealed: call{read}
    variable forged: call{read,amend}
    variable forged_length: integer

    set length := 12
    newtray calls[length]
    bind calls_to_read <- calls                 # refused: the elements are not equal
    set first := 0
    call sealed <- new_call(length)             # a call that main may read and not amend,
    store calls_to_read[first] <- sealed        # stored where read-only calls belong,
    fetch forged <- calls[first]                # fetched where amendable ones do,
    set forged_length := 99
    call amend(forged, forged_length)           # and amended
    return

procedure new_call of call gives call{read}
    formal length: integer
    variable made: call{open,read}
    newrecord made
    setslot made.length <- length
    return made

procedure amend of call
    formal target: call{amend} as call{open}
    formal length: integer
    setslot target.length <- length
    return
