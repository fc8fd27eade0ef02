# Runs past its end.
.entry start
.func start
    li a0, 5
.endfunc
