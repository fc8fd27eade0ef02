# Numbers at the ends of what `li` loads by one instruction and by two, branches that reach as far as they can, and blanks
# wherever they may stand.
.entry start
.func start
	li	a0 ,	7	
    li a0, 2047
    li a0, -2048
    li a0, 2048
    li a0, -2049
    li a0, 2147483647
    li a0, -2147483648
    li a0, 0x0007fF # ~
    li a0, 2147483647 ; li a0, -2147483648
.endfunc
.func ahead
    beqz a0, y
    .nops 1022
y:  ret
.endfunc
.func back
x:  .nops 1024
    bnez a0, x
.endfunc
