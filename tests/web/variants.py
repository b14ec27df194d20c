"""Variants of the page that have another module: one whose memory never grows, and one that traps."""
import base64
import re

MEGABYTE_PAGES = 16
MEMORY_SECTION = 5
MODULE = re.compile(r'(<script type="text/plain" id="module">)([^<]*)(</script>)')
# A module that has room for anything and can do nothing: what it exports, in WebAssembly's text form.
TRAPPING = """
(module (memory (export "memory") 200)
  (func (export "pbaudit_room") (param i64) (result i64) (i64.const 1024))
  (func (export "pbaudit_answer") (result i32) (unreachable))
  (func (export "pbaudit_answer_page") (result i32) (unreachable)))
"""


def leb(number):
    """A number as WebAssembly writes it."""
    low, rest = number % 128, number // 128
    return bytes([low]) if rest == 0 else bytes([low + 128]) + leb(rest)


def read_leb(data, at):
    """The number that stands there, and where it ends."""
    number, factor = 0, 1
    while data[at] >= 128:
        number, factor, at = number + factor * (data[at] - 128), factor * 128, at + 1
    return number + factor * data[at], at + 1


def with_fixed_memory(module, megabytes):
    """The module with so much more memory than it starts with, and no more after that."""
    at = 8
    while at < len(module):
        length, start = read_leb(module, at + 1)
        if module[at] == MEMORY_SECTION:
            pages = leb(read_leb(module, start + 2)[0] + MEGABYTE_PAGES * megabytes)
            section = b"\x01\x01" + pages + pages
            return module[:at] + bytes([MEMORY_SECTION]) + leb(len(section)) + section + module[start + length:]
        at = start + length
    raise ValueError("the module has no memory")


def text_of(page):
    with open(page, encoding="utf-8") as file:
        return file.read()


def module_of(page):
    """The module of the page."""
    return base64.b64decode(MODULE.search(text_of(page))[2])


def write(page, path, change):
    """Writes the page with its module changed."""
    text, module = text_of(page), change(module_of(page))
    with open(path, "w", encoding="utf-8") as file:
        file.write(MODULE.sub(lambda found: found[1] + base64.b64encode(module).decode() + found[3], text))
