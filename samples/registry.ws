# The registry's calls. Their type names twenty-two rights, seven more than edition 1 has room for; edition 2 has room for 31
# (document 02, S-5). The rights from archive on, the sixteenth, are rights like the others: a new call has them, keeps some
# where it is stored in a tray and has these when it is fetched, they are part of what ?R stands for, and the procedures of
# the module need them for what they do inside.
#
# expect: accepted 0 0
# reads: 9 14
# put: 14 2 1
# stop: 11 done
# at: return

edition 2

type call{read,annotate,amend,verify,compare,link,merge,split,copy,print,export,dispute,withdraw,release,publish,archive,restore,transfer,seal,audit,witness,certify} (length: integer, audits: integer, certified: integer)

qual whole = call{read,annotate,amend,verify,compare,link,merge,split,copy,print,export,dispute,withdraw,release,publish,archive,restore,transfer,seal,audit,witness,certify}
qual filed = call{read,archive,audit,certify}           # rights 1, 16, 20 and 22

procedure main
    variable count, first, second, length, audits, certified: integer
    variable made: whole
    variable files: tray[filed]{fetch,store,size}
    variable longer: filed
    variable seen: call{read,audit}

    set count := 2
    set first := 0
    set second := 1
    newtray files[count]
    take length
    call made <- new_call(length)
    store files[first] <- made          # filed: what is stored has four rights
    take length
    call made <- new_call(length)
    store files[second] <- made
    call longer <- longer_of(files)     # ?R is call{read,archive,audit,certify}
    call certify(longer)                # so the longer one may be certified as before
    bind seen <- longer                 # archive and certify are given up
    call length <- length_of(seen)
    put length
    call audits <- audit(seen)
    put audits
    call certified <- state_of(seen)
    put certified
    return

# Audits two calls and gives the longer one, under the rights that it had.
procedure longer_of for ?R >= call{read,audit} gives ?R
    formal items: tray[?R]{fetch}
    variable i, left_length, right_length, audits, test: integer
    variable left, right: ?R
    set i := 0
    fetch left <- items[i]
    set i := 1
    fetch right <- items[i]
    call audits <- audit(left)
    call audits <- audit(right)
    call left_length <- length_of(left)
    call right_length <- length_of(right)
    less test := left_length < right_length
    jumpzero test, first
    return right
first:
    return left

procedure new_call of call gives whole
    formal length: integer
    variable none: integer
    variable made: call{open,read,annotate,amend,verify,compare,link,merge,split,copy,print,export,dispute,withdraw,release,publish,archive,restore,transfer,seal,audit,witness,certify}
    newrecord made
    set none := 0
    setslot made.length <- length
    setslot made.audits <- none
    setslot made.certified <- none
    return made

procedure length_of of call gives integer
    formal item: call{read} as call{open,read}
    variable length: integer
    getslot length <- item.length
    return length

# Counts an audit, and gives how many there were.
procedure audit of call gives integer
    formal item: call{audit} as call{open,audit}
    variable audits, one: integer
    getslot audits <- item.audits
    set one := 1
    add audits := audits + one
    setslot item.audits <- audits
    return audits

procedure certify of call
    formal item: call{certify} as call{open,certify}
    variable one: integer
    set one := 1
    setslot item.certified <- one
    return

procedure state_of of call gives integer
    formal item: call{audit} as call{open}
    variable certified: integer
    getslot certified <- item.certified
    return certified
