# The smallest sheet under an edition that there is not: whoever reads it cannot know how its records are laid out.
#
# expect: refused 4 0
# at: HD 3 0 0 1

raw
HD 3 0 0 1                      # edition 3, no types, no qualified types, one procedure
PR 0 0 0 255 1                  # main: no owner, no formals, no variables, no result, one instruction
IN 17 255 255 255 0             # return
