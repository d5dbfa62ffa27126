"""The walk generator. tools/walkgen.py says how a walk is made; here it is made, a kind of statement a module:

    source, contract, mir    what is read: items and contracts of the .rt files, and the MIR
    types, held              what values are, and what a walk knows of each parameter and local
    walk, part, script       the state of a walk, the statements in order, the lines of a proof
    operands, elements       the rules for right sides and assignments
    calls, branches, loops   the rules for calls, for `if` and `match`, and for loops
    imports, proof           what a proof imports, and the whole of its text
    explain                  what --explain prints
    words                    pieces of text
"""
