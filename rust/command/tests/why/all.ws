type horse{read,race} (sire: horse{read}, shoes: tray[integer]{fetch,size})

procedure main
    variable n: integer
    variable stable: tray[horse{read,race}]{fetch,store,size}
    variable mare: horse{read,race}
    variable seen: horse{read}
    variable same: horse{read,race}
    variable sire, none: horse{read}
    variable to_read: tray[horse{read}]{fetch}
    variable shoes: tray[integer]{size}

    set n := 1
    newtray stable[n]
    call mare <- new_horse(n)
    bind same <- mare
    set n := 0
    store stable[n] <- same
    bind to_read <- stable
    fetch seen <- to_read[n]
    call set_sire(mare, seen)
    call sire <- sire_of(seen)
    call shoes <- shoes_of(sire)
    call same <- first(stable, mare)
    return

procedure new_horse of horse gives horse{read,race}
    formal count: integer
    variable made: horse{open,read,race}
    variable shoes: tray[integer]{fetch,store,size}
    newrecord made
    newtray shoes[count]
    setslot made.shoes <- shoes
    return made

procedure set_sire of horse
    formal foal: horse{race} as horse{open,race}
    formal sire: horse{read}
    setslot foal.sire <- sire
    return

procedure sire_of of horse gives horse{read}
    formal foal: horse{read} as horse{open}
    variable sire: horse{read}
    getslot sire <- foal.sire
    return sire

procedure shoes_of of horse gives tray[integer]{fetch,size}
    formal of: horse{} as horse{open}
    variable shoes: tray[integer]{fetch,size}
    getslot shoes <- of.shoes
    return shoes

procedure first for ?R >= horse{read} gives ?R
    formal items: tray[?R]{fetch}
    formal other: ?R
    variable n: integer
    variable found: ?R
    set n := 0
    fetch found <- items[n]
    return found
