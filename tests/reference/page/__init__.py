"""The whole text of the page about a certificate, written from the files alone, for what a reader has to be told.

The sentences stand in sentences/, by what they mean. What is said where, with which figures, is told in docs/PAGE.md,
docs/CONDITIONS.md and docs/FORMATS.md; a figure is a fraction until it is shown.
"""
