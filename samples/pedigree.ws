# A recursive walk of a pedigree. A horse is read as its number, then 1 and its sire and its dam, or 0 where they are not
# known. The walk puts each horse's number, its sire's side before its dam's; then main puts how many there are.
#
# expect: accepted 0 0
# reads: 7 1   3 1   1 0   2 0   4 0
# put: 7 3 1 2 4 5
# stop: 11 done
# at: return

type horse{read} (number: integer, known: integer, sire: horse{read}, dam: horse{read})

procedure main
    variable foal: horse{read}
    variable count: integer
    call foal <- take_horse()
    call count <- walk(foal)
    put count
    return

# The next horse of the reads, with all of its forebears.
procedure take_horse of horse gives horse{read}
    variable made: horse{open,read}
    variable number, known: integer
    variable parent: horse{read}
    newrecord made
    take number
    setslot made.number <- number
    take known
    setslot made.known <- known
    jumpzero known, taken
    call parent <- take_horse()
    setslot made.sire <- parent
    call parent <- take_horse()
    setslot made.dam <- parent
taken:
    return made

# Puts the numbers of a horse and its forebears, and gives their count. A parent that is not known is an empty slot,
# which may not be used.
procedure walk of horse gives integer
    formal start: horse{read} as horse{open}
    variable number, known, count, more: integer
    variable parent: horse{read}
    getslot number <- start.number
    put number
    set count := 1
    getslot known <- start.known
    jumpzero known, walked
    getslot parent <- start.sire
    call more <- walk(parent)
    add count := count + more
    getslot parent <- start.dam
    call more <- walk(parent)
    add count := count + more
walked:
    return count
