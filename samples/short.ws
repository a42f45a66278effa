# A procedure for trays of calls that may at least be read and amended is given one of calls that may only be read.
#
# expect: refused 21 72
# at: call amend_first(calls)
# watch: 19 unlicensed

type call{read,amend} (length: integer)

procedure main
    variable calls: tray[call{read}]{fetch}
    call amend_first(calls)             # refused: settled to call{read}, which lacks amend
    return

procedure amend_first for ?R >= call{read,amend}
    formal items: tray[?R]{fetch}
    variable first: integer
    variable item: ?R
    set first := 0
    fetch item <- items[first]
    call amend(item)
    return

procedure amend of call
    formal target: call{amend} as call{open}
    variable length: integer
    set length := 99
    setslot target.length <- length
    return
