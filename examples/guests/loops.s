# Calls a function again and again.
.entry start
.func start
    jal ra, three
again:
    jal ra, three
    j again
.endfunc
.func three
    addi a2, zero, 3
    ret
.endfunc
