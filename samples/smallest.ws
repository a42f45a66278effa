# The smallest sheet: main returns at once.
#
# expect: accepted 0 0
# stop: 11 done
# at: return

procedure main
    return
