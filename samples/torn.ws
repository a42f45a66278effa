# The smallest sheet, whose last byte was lost on the way: the instruction is cut short. Raw text says each record, or
# bytes that are none, as they stand.
#
# expect: refused 2 14
# at: bytes 49 4E 11 FF FF FF 00

raw
HD 1 0 0 1                      # edition 1, no types, no qualified types, one procedure
PR 0 0 0 255 1                  # main: no owner, no formals, no variables, no result, one instruction
bytes 49 4E 11 FF FF FF 00      # IN, return, a byte short
