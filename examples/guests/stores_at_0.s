# Stores at 0, which is not mapped.
.entry start
.func start
    li t0, 1
    sb t0, 0(zero)
.endfunc
