"""What an index calls the page about a certificate: what the election is called, and the answer in a sentence, as the page has
them in its title."""
from .election_files import description_of
from .shown import shown

# By the kind of certificate, and whether it is answered yes; a yes to stable prices has a sentence of its own.
_HEADLINES = {
    "en": {
        ("prices", True): "The prices support this outcome",
        ("stable prices", True): "The prices support this outcome in the stable form",
        ("prices", False): "The prices don\u2019t support this outcome",
        ("violation", True): "This group was treated worse than it deserves",
        ("violation", False): "This certificate doesn\u2019t prove unfair treatment",
    },
    "pl": {
        ("prices", True): "Ceny wspieraj\u0105 ten wynik",
        ("stable prices", True): "Ceny wspieraj\u0105 ten wynik w wersji stabilnej",
        ("prices", False): "Ceny nie wspieraj\u0105 tego wyniku",
        ("violation", True): "T\u0119 grup\u0119 potraktowano gorzej, ni\u017c na to zas\u0142uguje",
        ("violation", False): "Ten certyfikat nie dowodzi niesprawiedliwego potraktowania",
    },
    "de": {
        ("prices", True): "Die Preise st\u00fctzen dieses Ergebnis",
        ("stable prices", True): "Die Preise st\u00fctzen dieses Ergebnis in der stabilen Form",
        ("prices", False): "Die Preise st\u00fctzen dieses Ergebnis nicht",
        ("violation", True): "Diese Gruppe wurde schlechter behandelt, als ihr zusteht",
        ("violation", False): "Eine ungerechte Behandlung ist damit nicht bewiesen",
    },
    "fr": {
        ("prices", True): "Les prix soutiennent ce r\u00e9sultat",
        ("stable prices", True): "Les prix soutiennent ce r\u00e9sultat sous sa forme stable",
        ("prices", False): "Les prix ne soutiennent pas ce r\u00e9sultat",
        ("violation", True): "Ce groupe a \u00e9t\u00e9 trait\u00e9 moins bien qu\u2019il ne le m\u00e9rite",
        ("violation", False): "Ce certificat ne prouve aucun traitement injuste",
    },
}


def title_of(election: bytes, name: str, kind: str, is_yes: bool, is_stable: bool, language: str) -> str:
    """The title of a page about a certificate of this kind: prices, which were asked for in the stable form or not, or a
    violation. An election without a description is called by the name of its file."""
    key = "stable prices" if kind == "prices" and is_yes and is_stable else kind
    return f"{shown(description_of(election) or name)} \u2013 {_HEADLINES[language][key, is_yes]}"
