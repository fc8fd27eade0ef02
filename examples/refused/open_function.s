# A function without an end.
.entry start
.func start
    ret
