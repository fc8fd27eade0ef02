# Calls a function that calls itself, with the return address still in its register.
.entry start
.func start
    jal ra, f
    li a7, 93
    ecall
.endfunc
.func f
    jal ra, f
    ret
.endfunc
