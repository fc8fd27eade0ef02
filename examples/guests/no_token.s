# Jumps to a number that is no token.
.entry start
.func start
    li t0, 0x70000008
    jalr ra, 0(t0)
.endfunc
.func f
    ret
.endfunc
