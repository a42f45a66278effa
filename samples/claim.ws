# A stranger claims to amplify (document 02, S-4). The type steward is not the type call, and yet its procedure take_over
# would have amend inside where it needs no more than read. Check refuses that, so that no chain of amend can begin there.
# On the watched machine the claim counts for nothing: the call binds the formal to its inner type, and stops.
#
#     wennathig watch samples/claim.ws --why seen.read
#
# expect: refused 7 110
# at: formal item: call{read} as call{read,amend}
# watch: 19 unlicensed
# watch-at: call take_over(seen)

type call{read,amend} (length: integer)
type steward

procedure main
    variable seen: call{read}
    call seen <- new_call()
    call take_over(seen)
    return

procedure take_over of steward
    formal item: call{read} as call{read,amend}
    call amend(item)
    return

procedure new_call of call gives call{read,amend}
    variable made: call{open,read,amend}
    newrecord made
    return made                                 # less open

procedure amend of call
    formal target: call{amend} as call{open}
    variable length: integer
    set length := 99
    setslot target.length <- length
    return
