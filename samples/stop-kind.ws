# Stop 18, mixed sample, which only the watched machine knows: an integer is put where a call is found. Check refuses
# the sheet, so that the plain machine never meets it.
#
# expect: refused 8 50
# at: put item
# watch: 18 mixed sample

type call{read}

procedure main
    variable item: call{read}
    call item <- new_call()
    put item
    return

procedure new_call of call gives call{read}
    variable made: call{open,read}
    newrecord made
    return made
