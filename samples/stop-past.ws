# Stop 14, past the tray: the index is not below the size. What is put before stays on the report.
#
# expect: accepted 0 0
# put: 3
# stop: 14 past the tray
# at: store numbers[n] <- n

procedure main
    variable n: integer
    variable numbers: tray[integer]{store,size}
    set n := 3
    newtray numbers[n]
    size n <- numbers
    put n
    store numbers[n] <- n
    return
