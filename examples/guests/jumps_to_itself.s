# Jumps to itself for ever.
.entry start
.func start
on:
    j on
.endfunc
