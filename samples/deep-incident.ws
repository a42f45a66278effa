# The incident in trays of trays of trays. The two types differ in their innermost elements alone, and these are what
# check settles first (document 02, S-2). Were the bind let through, a read-only call stored three trays deep by way of
# rack_to_read would come back amendable by way of rack.
#
# expect: refused 8 108
# at: bind rack_to_read <- rack
# watch: 18 mixed sample

type call{read,amend} (length: integer)

procedure main
    variable count: integer
    variable rack: tray[tray[tray[call{read,amend}]{fetch,store}]{fetch,store}]{fetch,store}
    variable rack_to_read: tray[tray[tray[call{read}]{fetch,store}]{fetch,store}]{fetch,store}

    set count := 2
    newtray rack[count]
    bind rack_to_read <- rack                   # refused: the elements are not equal, three levels down
    return
