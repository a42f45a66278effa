# ?R in a procedure that declares no rights name: its line lacks `for ?R >= call{..}`, so that its PR has no GN after it.
#
# expect: refused 5 60
# at: formal items: tray[?R]{fetch}

type call{read,amend} (length: integer)

procedure main
    return

procedure first_of
    formal items: tray[?R]{fetch}
    return
