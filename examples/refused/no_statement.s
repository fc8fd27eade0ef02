# A statement that there is none of.
.entry f
.func f
    frob a0
.endfunc
