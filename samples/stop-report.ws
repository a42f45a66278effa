# Stop 16, report full: no word is free for the third put.
#
# expect: accepted 0 0
# report: 2
# put: 1 2
# stop: 16 report full
# at: put three

procedure main
    variable one, two, three: integer
    set one := 1
    set two := 2
    set three := 3
    put one
    put two
    put three
    return
