# Where a right came from (document 02, S-4). A call is made in its module, returned to main, passed to `file`, stored
# there, fetched by `latest` and returned: `seen` has read because each of them had it, back to where the call was made.
# The formal of `length_of` has open because it is amplified, in a procedure of the call's own module.
#
#     wennathig run samples/chain.ws --watch --why seen.read
#     wennathig run samples/chain.ws --watch --after 17 --why item.open
#
# expect: accepted 0 0
# put: 0
# stop: 11 done
# at: return

type call{read,amend} (length: integer)

qual drafts  = tray[call{read,amend}]{fetch,store}
qual results = tray[call{read}]{fetch}

procedure main
    variable count, length: integer
    variable drafts: drafts
    variable draft: call{read,amend}
    variable seen: call{read}

    set count := 1
    newtray drafts[count]
    call draft <- new_call()
    call file(drafts, draft)
    call seen <- latest(drafts)                 # drafts, read as results
    call length <- length_of(seen)
    put length
    return

procedure file
    formal drafts: drafts
    formal filed: call{read,amend}
    variable first: integer
    set first := 0
    store drafts[first] <- filed
    return

procedure latest gives call{read}
    formal results: results
    variable first: integer
    variable item: call{read}
    set first := 0
    fetch item <- results[first]                # amend stays behind
    return item

procedure new_call of call gives call{read,amend}
    variable length: integer
    variable made: call{open,read,amend}
    newrecord made
    set length := 0
    setslot made.length <- length
    return made                                 # less open

procedure length_of of call gives integer
    formal item: call{read} as call{open}
    variable length: integer
    getslot length <- item.length
    return length
