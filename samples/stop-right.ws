# Stop 19, unlicensed, which only the watched machine knows: a call that may only be read goes to a procedure that needs
# the right to amend it. Check refuses the sheet, so that the plain machine never meets it.
#
# expect: refused 9 68
# at: call amend(item)
# watch: 19 unlicensed

type call{read,amend} (length: integer)

procedure main
    variable item: call{read}
    call item <- new_call()
    call amend(item)
    return

procedure new_call of call gives call{read}
    variable made: call{open,read}
    newrecord made
    return made

procedure amend of call
    formal target: call{amend} as call{open}
    variable length: integer
    set length := 99
    setslot target.length <- length
    return
