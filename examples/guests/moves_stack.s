# Moves the stack pointer by a register.
.entry start
.func start
    li a0, 0
    li a7, 93
    ecall
.endfunc
.func f
    sub sp, sp, a0
    ret
.endfunc
