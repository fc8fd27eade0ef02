# The entry is the second function; it calls the one before it twice, and exits with a0.
.entry start
.func seven
    addi a0, a0, 7
    ret
.endfunc
.func start
    jal ra, seven
    jal ra, seven
    li a7, 93
    ecall
.endfunc
