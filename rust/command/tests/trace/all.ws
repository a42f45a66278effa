# Every instruction, and each way in which a value can be kept or dropped.

type call{read,amend} (length: integer, next: call{read})

procedure main
    variable count, index, length, test: integer
    variable item: call{read,amend}
    variable sealed: call{read}
    variable calls: tray[call{read}]{fetch,store,size}
    variable calls_to_read: tray[call{read}]{fetch,size}
    take count
    set index := 1
    newtray calls[count]
    call item <- new_call(count)
    store calls[index] <- item
    bind calls_to_read <- calls
    fetch sealed <- calls_to_read[index]
    size length <- calls_to_read
    call length <- length_of(sealed)
    call length_of(sealed)
    add length := length + index
    subtract length := index - length
    less test := length < index
    put length
    jumpzero index, end
    jumpzero test, end
    put test
end:
    return

procedure new_call of call gives call{read,amend}
    formal length: integer
    variable made: call{open,read,amend}
    newrecord made
    setslot made.length <- length
    setslot made.next <- made
    return made

procedure length_of of call gives integer
    formal item: call{read} as call{open,read}
    variable length: integer
    getslot length <- item.length
    call nothing(length)
    return length

procedure nothing
    formal unused: integer
    return
