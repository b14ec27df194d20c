"""A verdict as a notebook shows it."""
import html
from typing import Optional

from ._auditor import Question

HEIGHT = "40em"


def framed(question: Optional[Question]) -> Optional[str]:
    """The page about the certificate of a question, in a frame of its own, so that its style is that of no other cell;
    None where what was asked isn't known any more, or the page can't be made, as one about a refutation can't by an older
    auditor."""
    from .auditing import Refusal
    from .pages import write_page
    if question is None or question.certificate is None:
        return None
    mode = question.mode
    try:
        page = write_page(question.election, question.certificate, outcome=question.outcome, stable=mode.stable,
                          exhaustive=mode.exhaustive, cover=mode.cover)
    except (ImportError, MemoryError, RuntimeError, Refusal):
        return None
    return (f'<iframe sandbox="" style="width: 100%; height: {HEIGHT}; border: 0" '
            f'srcdoc="{html.escape(page.decode("utf-8"))}"></iframe>')
