# Takes the address of the entry function, in code that nothing reaches.
.entry start
.func start
    li a0, 0
    li a7, 93
    ecall
.endfunc
.func f
    ret
    la a0, start
    ret
.endfunc
