"""The version of this package. It stands in the sources of the program, and a wheel has it here."""
VERSION = "unknown"
