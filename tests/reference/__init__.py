"""Reference programs, written independently from docs/ alone (FORMATS.md, SCRIPTS.md) and compared with the proved programs.

Nothing here was taken from the crates or from what the programs print. `tools/compare` makes random inputs, gives them to a program
and to its reference, and shows the first input that they answer differently. The executables `gtidrep` and `replica_script` beside
this file are the references as programs: `tools/cases --with gtidrep=tests/reference/gtidrep FILE` runs the cases of a file on them.
"""
