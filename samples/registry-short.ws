# A clerk of the registry may read, seal and certify a call, and gives it to those who audit. They need audit, the twentieth
# of the rights that the type names; seal, the one before it, and certify, the last, do not stand for it.
#
# expect: refused 9 90
# at: call audits <- audit(item)
# watch: 19 unlicensed

edition 2

type call{read,annotate,amend,verify,compare,link,merge,split,copy,print,export,dispute,withdraw,release,publish,archive,restore,transfer,seal,audit,witness,certify} (audits: integer)

procedure main
    variable item: call{read,seal,certify}
    variable audits: integer
    call item <- new_call()             # allowed, audit is given up
    call audits <- audit(item)          # refused: audit is lacking
    put audits
    return

procedure new_call of call gives call{read,seal,audit,certify}
    variable made: call{open,read,seal,audit,certify}
    variable none: integer
    newrecord made
    set none := 0
    setslot made.audits <- none
    return made

procedure audit of call gives integer
    formal item: call{audit} as call{open,audit}
    variable audits, one: integer
    getslot audits <- item.audits
    set one := 1
    add audits := audits + one
    setslot item.audits <- audits
    return audits
