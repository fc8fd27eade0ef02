# One less than the least number of 32 bits.
.entry f
.func f
    li a0, -2147483649
.endfunc
