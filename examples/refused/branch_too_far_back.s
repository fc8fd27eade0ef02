# A branch back over 4,100 bytes; 4,096 are the most.
.entry f
.func f
x: .nops 1025
    bnez a0, x
.endfunc
