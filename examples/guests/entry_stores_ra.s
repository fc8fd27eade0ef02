# Stores a byte of ra in the entry function.
.entry start
.func start
    sb ra, 0(sp)
    li a7, 93
    ecall
.endfunc
