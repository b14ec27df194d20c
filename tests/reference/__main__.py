"""python3 -m reference WORD..: answers as the program does for these words; run it in the folder tests/."""
import sys

from . import objects
from .answers import answer

words = [word for word in sys.argv[1:] if word != "--json"]
text, status, errors = answer(words)
if "--json" in sys.argv[1:]:
    values, status = objects.answers(words)
    text = b"".join(map(objects.text_of, values))
sys.stdout.buffer.write(text)
sys.stderr.buffer.write(errors)
sys.exit(status)
