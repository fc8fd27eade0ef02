# One more than the greatest number of 32 bits.
.entry f
.func f
    li a0, 2147483648
.endfunc
