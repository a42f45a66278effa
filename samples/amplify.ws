# Amplification: main holds a call that it may amend and not open. A procedure of the type call needs no more than amend
# and has open inside, because its formal is of the type that the procedure is of.
#
# expect: accepted 0 0
# put: 1200
# stop: 11 done
# at: return

type call{read,amend} (time: integer)

procedure main
    variable item: call{read,amend}
    variable time: integer
    set time := 1200
    call item <- new_call()
    call give_time(item, time)
    call time <- time_of(item)
    put time
    return

procedure new_call of call gives call{read,amend}
    variable made: call{open,read,amend}
    newrecord made
    return made                     # less open

procedure give_time of call
    formal target: call{amend} as call{open}
    formal time: integer
    setslot target.time <- time
    return

procedure time_of of call gives integer
    formal item: call{read} as call{open}
    variable time: integer
    getslot time <- item.time
    return time
