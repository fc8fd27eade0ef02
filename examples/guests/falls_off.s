# Runs past the end of its function.
.entry start
.func start
    nop
.endfunc
