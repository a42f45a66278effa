# Stop 13, blank: the cell of a new tray is empty until something is stored in it.
#
# expect: accepted 0 0
# stop: 13 blank
# at: fetch n <- numbers[n]

procedure main
    variable n: integer
    variable numbers: tray[integer]{fetch,store}
    set n := 1
    newtray numbers[n]
    set n := 0
    fetch n <- numbers[n]
    put n
    return
