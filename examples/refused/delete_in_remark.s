# The same in a remark.
.entry f
.func f
    ret # 
.endfunc
