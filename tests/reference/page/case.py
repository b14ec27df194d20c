"""What a page is about, and how its amounts and names stand in sentences."""
import hashlib
from dataclasses import dataclass
from fractions import Fraction

from . import amounts
from .labels import MOST_OF_A_CURRENCY, MOST_SHOWN, MOST_UNDER_POINTER, Labels, cut, visible
from .nodes import element
from .wording import Wording

MILLION = 10**6


@dataclass
class InputFile:
    """A file that was audited: what it is, its name without folders, and its bytes."""

    role: str
    name: bytes
    data: bytes

    @property
    def sum(self):
        return hashlib.sha256(self.data).hexdigest()


class Case:
    """The election, the outcome and the files, in a language."""

    def __init__(self, language, election, funded, files):
        self.language, self.wording = language, Wording(language)
        self.election, self.funded, self.files = election, funded, files
        self.labels = Labels(files[0].data)
        self.names_in = self.labels.language()
        self.currency = cut(self.labels.fact("currency"), MOST_OF_A_CURRENCY)
        self.limit = Fraction(election.limit, MILLION)
        self.decimals = amounts.decimals_for([self.limit, *map(self.cost, election.projects)])

    # Sentences.

    def say(self, meaning, count=None):
        return self.wording.say(meaning, count)

    def filled(self, meaning, number=None, /, **fillings):
        return self.wording.filled(meaning, number, **fillings)

    def voter(self, voter):
        """A voter in a sentence, by its row."""
        return self.filled("projects.voter", voter=amounts.grouped(voter))

    def none_unfunded(self):
        return self.say("unfunded.none" if self.election.ids else "projects.none")

    def none_funded(self):
        return self.say("funded.none" if self.election.ids else "projects.none")

    # Amounts.

    def cost(self, project):
        return Fraction(self.election.costs[project], MILLION)

    def supporters(self, project):
        return len(self.election.supporters(project))

    def cost_of(self, projects):
        return sum(map(self.cost, projects), Fraction(0))

    def amount(self, value):
        return amounts.shown(value, self.decimals, self.language)

    def money(self, value):
        """An amount with its currency."""
        if not self.currency:
            return [self.amount(value)]
        return [self.amount(value) + amounts.NO_BREAK, element("bdi", self.currency)]

    def unit(self):
        """The currency behind the head of a column of amounts."""
        return [", ", element("bdi", self.currency)] if self.currency else []

    def point(self):
        return amounts.POINT[self.language]

    # Names.

    def words_of_others(self, text, class_=None):
        """What a file says, isolated from the words around it, in its language; under the pointer the rest of it."""
        under = cut(text, MOST_UNDER_POINTER) if len(text) > MOST_SHOWN else None
        return element("bdi", cut(text), class_=class_, lang=self.names_in, title=under)

    def framed(self, text):
        """What a file says, in a sentence."""
        return self.words_of_others(text, "named")

    def id(self, project):
        return visible(self.election.id(project))

    def project(self, project):
        """A project in a sentence: its id, and its name where it has one."""
        name = self.labels.name(project)
        return self.framed(self.id(project) + (f" \u00b7 {name}" if name else ""))

    def project_name(self, project):
        """A project where it stands alone: its name, or else its id."""
        return cut(self.labels.name(project) or self.id(project))
