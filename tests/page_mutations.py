"""Pages that are turned, each by one change, and the test of tests/test_pages.py that has to fail on it."""
from dataclasses import dataclass

PHONE, SCREEN, ZOOMED = (390, "light", "screen"), (1100, "light", "screen"), (550, "light", "screen")
DARK, PAPER = (1100, "dark", "screen"), (680, "light", "print")


@dataclass(frozen=True)
class Mutation:
    """What is wrong on the page, which page it is, the check that fails, the text that is replaced (so often; -1 is
    wherever it stands), and how the page is opened."""

    what: str
    page: str
    test: str
    old: str
    new: str
    way: tuple = SCREEN
    times: int = 1


def styled(what, page, test, rules, way=SCREEN):
    """A page with rules behind those of its style."""
    return Mutation(what, page, test, "</style>", rules + "</style>", way)


ANSWER, CHANGED, NAMES, CURRENCY = "test_answer", "test_nothing_is_changed", "test_names", "test_currency"
FETCHED, FITS, BARS, ORDERS = "test_nothing_is_fetched", "test_it_fits", "test_bars", "test_orders"
CONTRAST, PAINTED, PRINT = "test_contrast", "test_painted", "test_print"
HEARD, AXE, FOCUS = "test_it_can_be_heard", "test_axe", "test_focus"
OFFER = "20\u202f374.26\u00a0"
RACKS = "Radb\u00fcgel am Bahnhof; 24 St\u00fcck"
STRIPES = ".over .part { background: repeating-linear-gradient(45deg, var(--over) 0 6px, %s 6px 8px); }"

SAID = [
    Mutation("a no as a yes", "stable", ANSWER, "<h2>The prices don\u2019t support", "<h2>The prices support"),
    Mutation("a yes as a no", "sturdy", ANSWER, "<h2>The prices support", "<h2>The prices don\u2019t support"),
    Mutation("a violation as none", "violation", ANSWER, "<h2>This group was treated worse than it deserves</h2>",
             "<h2>This certificate doesn’t prove unfair treatment</h2>"),
    Mutation("the stable answer as the plain one", "sturdy", ANSWER, " in the stable form</h2>", "</h2>"),
    Mutation("another title", "stable", ANSWER, " \u2013 The prices don\u2019t", " \u2013 The prices do"),
    Mutation("another line", "stable", ANSWER, "<code>failed S5 project 102", "<code>failed S5 project 108"),
    Mutation("another language", "german", ANSWER, '<html lang="de">', '<html lang="en">'),
    Mutation("a headline in another language", "french", ANSWER, "<h2>Ce certificat", "<h2>This certificate"),
    Mutation("an amount without its currency", "stable", CURRENCY, OFFER + "<bdi>EUR</bdi> together", OFFER + "together"),
    Mutation("a column without a currency", "stable", CURRENCY, "Cost, <bdi>EUR</bdi></th>", "Cost</th>"),
    Mutation("a tile without a currency", "stable", CURRENCY, '<span class="sub"><bdi>EUR</bdi></span>', ""),
    Mutation("a label without a currency", "stable", CURRENCY, f"could offer {OFFER}EUR,", f"could offer {OFFER[:-1]},"),
    Mutation("a placeholder", "yes", CHANGED, "It answers:", "It answers {line}:"),
]
WRITTEN_BY_OTHERS = [
    Mutation("a name as markup", "hostile", CHANGED, "&lt;img src=//example.org/x.png onerror=document.title=3&gt;",
             "<img src=//example.org/x.png onerror=document.title=3>"),
    Mutation("a head in a name", "hostile", CHANGED, "&lt;h1&gt;Yes&lt;/h1&gt;", "<h1>Yes</h1>"),
    Mutation("scripts in names", "hostile", ANSWER, "&lt;script&gt;", "<script>", times=-1),
    Mutation("a mark that turns", "hostile", NAMES, '"named" lang="pl">\\u{202e}evil', '"named" lang="pl">\u202eevil'),
    Mutation("a name that isn't isolated", "stable", NAMES, f'"name"><bdi lang="de">{RACKS}</bdi>', f'"name">{RACKS}'),
    Mutation("a name left out", "stable", NAMES, '<bdi lang="de">Konzerte im Innenhof</bdi>', '<bdi lang="de"></bdi>'),
    Mutation("names in no language", "hostile", NAMES, ' lang="pl"', "", times=-1),
    Mutation("a picture from elsewhere", "yes", FETCHED, "<header>", "<header><img src=picture.png>"),
    Mutation("a style from elsewhere", "yes", FETCHED, "<style>", "<style>@import url(style.css);"),
]
DRAWN = [
    Mutation("a row in the place of another", "stable", BARS, '">102</bdi></span></th>', '">108</bdi></span></th>'),
    Mutation("a part too long", "yes", BARS, "--share:92.05", "--share:93.05"),
    Mutation("a bound without its mark", "stable", BARS, '<span class="mark"></span>', ""),
    styled("marks in another place", "stable", BARS, ".mark { left: 80%; }"),
    Mutation("a bar that doesn't say that it is cut", "stable", BARS, '<span class="cut">\u00bb</span>', ""),
    Mutation("a label of another project", "stable", BARS, 'aria-label="Konzerte im', 'aria-label="Hallenbad im'),
    Mutation("a label that doesn't say of what", "violation", BARS, 'aria-label="The group\u2019s share of the limit is ',
             'aria-label="'),
    Mutation("a mark where the whole is the end", "over", BARS, '<span class="cut">',
             '<span class="mark"></span><span class="cut">'),
    styled("an order that isn't made", "stable", ORDERS, ".sorted tbody tr { order: 0 !important; }"),
    Mutation("an order turned", "yes", ORDERS, "--cost:1;", "--cost:99;"),
    styled("the first order reversed", "yes", ORDERS, ".sorted tbody { display: flex; flex-direction: column-reverse; }"),
    styled("faint text", "yes", CONTRAST, ":root { --soft: #8d9095; }"),
    styled("faint text in the dark", "yes", CONTRAST, ":root { --soft: #5a5e64; }", DARK),
    styled("a faint part", "yes", PAINTED, ":root { --fill: #b3cfe2; }"),
    styled("faint stripes", "stable", PAINTED, STRIPES % "var(--fill)"),
    styled("no stripes", "stable", PAINTED, STRIPES % "var(--over)"),
    styled("a faint edge", "yes", PAINTED, ":root { --edge: #d0ccc6; }"),
    styled("a faint mark", "stable", PAINTED, ".mark { background: var(--track); box-shadow: none; }"),
    styled("a mark that isn't there", "stable", PAINTED, ".mark { visibility: hidden; }"),
    styled("words that don't break", "hostile", FITS, "* { overflow-wrap: normal !important; }", PHONE),
    styled("a wide table", "yes", FITS, "table { min-width: 60rem; }", ZOOMED),
]
HEARD_AND_REACHED = [
    Mutation("a table without a role", "yes", HEARD, '<table role="table"', "<table", PHONE),
    Mutation("a cell without a role", "yes", HEARD, '<td role="cell"', "<td", PHONE),
    Mutation("a head of a row without a role", "yes", HEARD, '<th role="rowheader"', "<th", PHONE),
    Mutation("a table without a name", "yes", HEARD, ' aria-label="Projects that were funded"', ""),
    Mutation("a level of heads left out", "yes", HEARD, "<h3>", "<h5>", times=-1),
    Mutation("no zoom", "yes", HEARD, "width=device-width", "user-scalable=no, width=device-width"),
    Mutation("a picture without words", "yes", HEARD, 'role="img" aria-label="', 'role="img" aria-label="" title="'),
    Mutation("a list of other things", "yes", AXE, '<ul class="asked">', '<ul class="asked"><p></p>'),
    Mutation("a language that is none", "yes", AXE, '<bdi lang="de">', '<bdi lang="deutsch">'),
    styled("text that axe finds faint", "yes", AXE, ":root { --soft: #8d9095; }"),
    styled("a focus that isn't seen", "yes", FOCUS, ".sort label:has(input) { outline: none !important; }"),
    styled("a faint focus", "yes", FOCUS, ".sort label:has(input) { outline-color: var(--line) !important; }"),
    Mutation("something else that the keyboard reaches", "yes", FOCUS, "<header>", '<header tabindex="0">'),
]
PRINTED = [
    styled("sheets without numbers", "yes", PRINT, "@page { @bottom-right { content: none; } }", PAPER),
    styled("sheets without heads", "many", PRINT, "@media print { thead { display: table-row-group; } }", PAPER),
    Mutation("a PDF without a title", "yes", PRINT, "<title>", "<title></title><title>", PAPER),
]
MUTATIONS = SAID + WRITTEN_BY_OTHERS + DRAWN + HEARD_AND_REACHED + PRINTED
