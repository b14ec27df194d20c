"""A plain and slow answer to the same commands, written from docs/FORMATS.md, docs/CONDITIONS.md and docs/JSON.md
alone.

It keeps whole lists and sets, tries each condition as it is worded, and counts in fractions. It shares nothing with the
program, and no answer of the program was taken over.
"""
