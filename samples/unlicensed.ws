# A reader of a tray stores into it, by way of a variable that has fetch and size and lacks store.
#
# expect: refused 9 76
# at: store numbers_to_read[n] <- n
# watch: 19 unlicensed

procedure main
    variable n: integer
    variable numbers: tray[integer]{fetch,store,size}
    variable numbers_to_read: tray[integer]{fetch,size}
    set n := 3
    newtray numbers[n]
    bind numbers_to_read <- numbers     # allowed, a right is given up
    set n := 0
    store numbers_to_read[n] <- n       # refused, store is lacking
    return
