# A procedure of the type call would hand its caller a call that can be opened outside the module.
#
# expect: refused 6 40
# at: procedure new_call of call gives call{open}

type call{read,amend}

procedure main
    return

procedure new_call of call gives call{open}     # refused: open may not leave by a result
    variable made: call{open}                   # in a variable of the module it may stand
    newrecord made
    return made
