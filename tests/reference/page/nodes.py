"""A page as elements and texts, and the pieces of it that tell a reader something."""
from dataclasses import dataclass
from html.parser import HTMLParser

VOID = {"br", "input", "meta"}
# Elements that only lay out what is in them. Where any other begins and ends is a piece.
WRAPPERS = {
    "html", "head", "body", "header", "main", "section", "footer", "div", "span", "dl", "ul", "ol", "table", "thead",
    "tbody", "fieldset",
}  # fmt: skip
# Classes by which something is told: the colour of news, what a patch or a bar is, an order, words of others.
TELLING = {
    "answer", "bad", "neither", "caution", "state", "fails", "unasked", "bar", "over", "beyond", "rest", "patch",
    "part", "mark", "cut", "named", "stable", "closest", "dearest", "supported", "sorted", "claim", "head",
}  # fmt: skip


@dataclass
class Element:
    tag: str
    attributes: dict
    children: list


def element(tag, *children, **attributes):
    """An element. Names of attributes have _ for -, and 'class_' stands for 'class'; one that is None is left out."""
    named = {name.strip("_").replace("_", "-"): value for name, value in attributes.items() if value is not None}
    return Element(tag, named, flat(children))


def flat(children):
    """The nodes of lists of nodes, in one list."""
    nodes = []
    for child in children:
        nodes += flat(child) if isinstance(child, (list, tuple)) else [child]
    return nodes


def text_of(nodes):
    """The words of nodes, without the elements around them."""
    return "".join(node if isinstance(node, str) else text_of(node.children) for node in flat([nodes]))


class Reader(HTMLParser):
    """Reads the elements and texts of a page that is written as HTML."""

    def __init__(self, text):
        super().__init__(convert_charrefs=True)
        self.root = Element("page", {}, [])
        self.open, self.faults = [self.root], []
        self.feed(text)
        self.close()
        if len(self.open) > 1:
            self.faults.append(f"{self.open[-1].tag} isn't ended")

    def handle_starttag(self, tag, attrs):
        begun = Element(tag, dict(attrs), [])
        if len(begun.attributes) != len(attrs):
            self.faults.append(f"an attribute of {tag} stands twice")
        self.open[-1].children.append(begun)
        if tag not in VOID:
            self.open.append(begun)

    def handle_endtag(self, tag):
        if self.open[-1].tag == tag:
            self.open.pop()
        else:
            self.faults.append(f"{tag} ends in {self.open[-1].tag}")

    def handle_data(self, data):
        if len(self.open) > 1:
            self.open[-1].children.append(data)
        elif data.strip():
            self.faults.append(f"words outside of the page: {data}")

    def handle_decl(self, decl):
        if decl != "DOCTYPE html":
            self.faults.append(f"the page is {decl}")

    def handle_comment(self, data):
        self.faults.append(f"a comment: {data}")

    handle_pi = unknown_decl = handle_comment


def pieces_of(node):
    """The pieces that tell something, in order, each with its place: texts, attributes, and where elements begin and
    end. Of a style sheet nothing is a piece."""
    pieces = []
    add_pieces(pieces, node, "")
    return pieces


def add_pieces(pieces, node, place):
    if node.tag == "style":
        return
    is_piece = node.tag not in WRAPPERS
    if is_piece:
        pieces.append((place, f"<{node.tag}>"))
    for name, value in sorted(node.attributes.items()):
        if name == "class":
            value = " ".join(sorted(TELLING.intersection(value.split())))
        if value or name != "class":
            pieces.append((place, f"{name}={value}"))
    counts, words = {}, ""
    # The last one is no child; it ends the words before it.
    for child in [*node.children, None]:
        if isinstance(child, str):
            words += child
            continue
        if words:
            pieces.append((place, repr(words)))
        words = ""
        if child:
            counts[child.tag] = counts.get(child.tag, 0) + 1
            add_pieces(pieces, child, f"{place} {child.tag}{counts[child.tag]}")
    if is_piece and node.tag not in VOID:
        pieces.append((place, f"</{node.tag}>"))
