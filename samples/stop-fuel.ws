# Stop 12, fuel spent: a loop without an end is stopped after as many steps as there is fuel. The words put until then
# stand on the report.
#
# expect: accepted 0 0
# fuel: 13
# put: 1 2 3
# stop: 12 fuel spent
# at: put count

procedure main
    variable count, one, zero: integer
    set zero := 0
    set count := 0
    set one := 1
again:
    add count := count + one
    put count
    jumpzero zero, again
    return
