# An entry that is no function.
.entry start
