# Jumps to the token of a function whose address nothing takes.
.entry start
.func start
    li t0, 0x70000010
    jalr ra, 0(t0)
.endfunc
.func f
    ret
.endfunc
