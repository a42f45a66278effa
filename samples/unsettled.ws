# Two trays for one rights name. The procedure moves calls from one tray to the other, which is only sound if both are
# under the same rights; here the drafts may be amended and the calls may not, so that the call settles ?R twice over.
#
# expect: refused 20 82
# at: call move(calls, drafts)
# watch: 18 mixed sample

type call{read,amend} (length: integer)

procedure main
    variable calls: tray[call{read}]{fetch,store}
    variable drafts: tray[call{read,amend}]{fetch,store}
    call move(calls, drafts)            # refused: call{read}, and call{read,amend}
    return

procedure move for ?R >= call{read}
    formal from: tray[?R]{fetch}
    formal to: tray[?R]{store}
    variable first: integer
    variable item: ?R
    set first := 0
    fetch item <- from[first]
    store to[first] <- item
    return
