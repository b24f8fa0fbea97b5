"""What the command `tools/gate` is made of.

parts    one part of the gate: a command, its count and what it took
watch    the processor time of each command that `rt ci` starts, by crate
table    the table of what each crate took
command  the command line
"""
