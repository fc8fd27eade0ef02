# A byte that is no printable character, tab or line feed.
.entry f
.func f
    ret
.endfunc
