# A procedure of the type horse would have the right to amend a call when its caller has only the right to read it. A
# formal of a stranger's type is never amplified: what it needs and what it is inside must be equal.
#
# expect: refused 7 66
# at: formal item: call{read} as call{read,amend}

type call{read,amend}
type horse{read,amend}

procedure main
    return

procedure take_over of horse
    formal item: call{read} as call{read,amend}
    return
