# A label that is defined again in its function.
.entry f
.func f
x: ret
x: ret
.endfunc
