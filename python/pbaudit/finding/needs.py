"""The packages that a search needs and the others of this package don't: numpy, and scipy for the linear programme."""
from importlib import import_module
from typing import Any

HOW_TO_INSTALL = (
    "{} isn't installed, and pbaudit finds certificates by scipy: from the repository of pbaudit install it with "
    "pip install './python[find]', or on a Debian with apt install python3-scipy"
)


def needed(name: str) -> Any:
    """A package, or a part of one. Raises ImportError with the name of the package and how to install it."""
    try:
        return import_module(name)
    except ModuleNotFoundError as why:
        package = name.partition(".")[0]
        if (why.name or package).partition(".")[0] != package:
            raise
        raise ImportError(HOW_TO_INSTALL.format(package)) from None
