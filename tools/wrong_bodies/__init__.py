"""What the command `tools/wrong-bodies` is made of.

kit         the kit's own Python code, found from `rt`
edits       an edit file, and the places of the text that it changes
functions   a crate's functions, where they stand and how a check names them
impl_names  how a check names the impls of traits
layout      the text with some edits in it
check       one check of a copy of the crate, with some edits in it
findings    what a check printed, by function
verdicts    what that says of one edit
trials      which edits are checked together, and what is tried alone
libraries   the libraries that a crate stands on
lanes       work side by side
texts       what of a crate's text a verdict rests on
record      the record of refusals that is committed, and the key of an edit
sample      the edits on record that a run tries again
run         the crates that are tried, their rows and the count
listing     the list of all edits
command     the command line
self_test   the command, tried on a small repository of its own
self_record what the self test last passed on
"""
