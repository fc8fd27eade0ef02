# Takes the address of a function in code.
.entry start
.func start
    la a0, work
    .nops 13
.endfunc
.func work
    ret
.endfunc
