# One word more than 67,108,864 bytes of text.
.entry f
.func f
    .nops 16777217
.endfunc
