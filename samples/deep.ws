# Deep trays: a freezer of racks of plates of rows of wells. The number stored in one well is found again through a
# variable that may only fetch racks: rights are given up at the top, and the elements below stay equal.
#
# expect: accepted 0 0
# reads: 5
# put: 5
# stop: 11 done
# at: return

qual wells   = integer
qual row     = tray[wells]{fetch,store,size}
qual plate   = tray[row]{fetch,store,size}
qual rack    = tray[plate]{fetch,store,size}
qual freezer = tray[rack]{fetch,store,size}

procedure main
    variable freezer: freezer
    variable freezer_to_read: tray[rack]{fetch}
    variable rack: rack
    variable plate: plate
    variable row: row
    variable count, last, well: integer

    set count := 3
    set last := 2
    newtray freezer[count]
    newtray rack[count]
    newtray plate[count]
    newtray row[count]
    take well
    store row[last] <- well
    store plate[last] <- row
    store rack[last] <- plate
    store freezer[last] <- rack
    bind freezer_to_read <- freezer
    fetch rack <- freezer_to_read[last]
    fetch plate <- rack[last]
    fetch row <- plate[last]
    fetch well <- row[last]
    put well
    return
