"""Tables of projects."""
from .nodes import element

MOST_ROWS = 1000
WORDS, BAR, NUMBER, MONEY = "words", "bar", "number", "money"


def table(case, title, columns, rows):
    """A table with such columns, each a head and what it has, and its first rows; and how many more there are."""
    heads = [element("th", head_words(case, column), role="columnheader") for column in columns]
    body = [row(case, columns, *each) for each in rows[:MOST_ROWS]]
    drawn = element(
        "table",
        element("thead", element("tr", heads, role="row"), role="rowgroup"),
        element("tbody", body, role="rowgroup"),
        role="table", aria_label=case.say(title),
    )  # fmt: skip
    left_out = len(rows) - MOST_ROWS
    if left_out <= 0:
        return [drawn]
    count = str(left_out)
    return [drawn, element("p", case.filled("projects.left_out", left_out, count=count), class_="fails")]


def head_words(case, column):
    head, kind = column
    return [case.say(head), case.unit() if kind == MONEY else []]


def row(case, columns, project, places, *cells):
    """The row of a project: its name and its id, and the cells of the other columns; where the table has other orders,
    with its places in them."""
    name = case.labels.name(project)
    head = element(
        "th",
        element("span", case.words_of_others(name)) if name else [],
        element("span", case.filled("projects.project_id", id=case.framed(case.id(project)))),
        role="rowheader",
    )
    return element("tr", head, [cell(case, *each) for each in zip(columns[1:], cells)], role="row", style=places)


def cell(case, column, content):
    """A cell. Where rows are cards its head stands in it as well, which is heard once."""
    head = element("span", head_words(case, column), class_="head", aria_hidden="true")
    return element("td", [] if column[1] == BAR else head, content, role="cell")
