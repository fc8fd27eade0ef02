# Calls by one instruction with the return address still in its register.
.entry start
.func start
    li a0, 0
    li a7, 93
    ecall
.endfunc
.func f
    jal ra, f
    ret
.endfunc
