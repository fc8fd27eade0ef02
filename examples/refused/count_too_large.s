# More words than there may be bytes of text.
.entry f
.func f
    .nops 67108865
.endfunc
