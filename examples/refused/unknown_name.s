# A call of what is not there.
.entry f
.func f
    call g
.endfunc
