"""A small model of the library: trees, how a text makes one, what it prints, when it fits, and what calls leave of it.

It is written from TOML's text and the definitions in `crates/*/specs`, and not from the code. `tools/model.py` tries the programs beside
it. A side of a decor is a text, or None if it is unset. What is refused leaves the tree as it was.
"""
import copy
import re

VISIBLE = r"[^\x00-\x08\n-\x1f\x7f]"
WHITE = re.compile(r"[ \t]*")
LINE_END = re.compile(r"[ \t]*(#%s*)?" % VISIBLE)
TRIVIA = re.compile(r"([ \t]|\r?\n|#%s*\r?\n)*" % VISIBLE)
FINAL = re.compile(r"([ \t]|\r?\n|#%s*\r?\n)*(#%s*)?" % (VISIBLE, VISIBLE))
VALUES = ("scalar", "array", "inline")


class Key:
    """A key: its name and spelling, and its decors at the end of a path and at dots."""

    def __init__(self, name, spelled=None, leaf=(None, None), dotted=(None, None)):
        self.name, self.spelled, self.leaf, self.dotted = name, spelled, list(leaf), list(dotted)

    def __deepcopy__(self, _):
        return Key(self.name, self.spelled, self.leaf, self.dotted)

    def text(self):
        return key_spelling(self.name) if self.spelled is None else self.spelled


class Node:
    """An item of any kind: "nothing" (a placeholder), "scalar", "array", "inline", "table" or "tables"."""

    def __init__(self, kind, **fields):
        self.kind, self.decor, self.value, self.text = kind, [None, None], None, None
        self.items, self.slots, self.comma, self.trailing = [], [], False, ""
        self.dotted, self.implicit, self.position = False, False, None
        self.__dict__.update(fields)

    def __deepcopy__(self, _):
        made = Node.__new__(Node)
        made.__dict__.update(self.__dict__, decor=list(self.decor), items=list(map(copy.deepcopy, self.items)))
        made.slots = [[copy.deepcopy(key), copy.deepcopy(inner)] for key, inner in self.slots]
        return made

    def is_value(self):
        return self.kind in VALUES

    def is_line(self):
        return self.is_value() and not (self.kind == "inline" and self.dotted)

    def place(self, name):
        """The place of the slot of a name, or None."""
        return next((at for at, (key, _) in enumerate(self.slots) if key.name == name), None)

    def get(self, name):
        at = self.place(name)
        return None if at is None or self.slots[at][1].kind == "nothing" else self.slots[at][1]


class Document:
    def __init__(self, exact=False):
        self.root, self.trailing, self.exact, self.open = Node("table"), "", exact, False


class Refused(Exception):
    """Why a call or an edit changes nothing."""


# ---- spellings


def plain(text, more):
    return not re.search(r"[\x00-\x08\n-\x1f\x7f%s]" % more, text)


def escaped(text, many):
    names = {"\\": "\\\\", '"': '\\"', "\b": "\\b", "\f": "\\f", "\r": "\\r", "\n": "\n" if many else "\\n"}
    return "".join(names.get(c) or (c if plain(c, "") else "\\u%04X" % ord(c)) for c in text)


def string_spelling(text):
    if plain(text, '"\\\\'):
        return '"%s"' % text
    if plain(text, "'"):
        return "'%s'" % text
    return '"""\n%s"""' % escaped(text, True) if "\n" in text else '"%s"' % escaped(text, False)


def key_spelling(name):
    if re.fullmatch("[A-Za-z0-9_-]+", name):
        return name
    return string_spelling(name) if "\n" not in name else '"%s"' % escaped(name, False)


# ---- the print


def shown(side, exact, default=""):
    return default if side is None else side if exact else side.replace("\r", "")


def scalar_text(node):
    if node.text is not None:
        return node.text
    return string_spelling(node.value[1]) if node.value[0] == "string" else str(node.value[1]).lower()


def path_text(keys, exact):
    parts = []
    for at, key in enumerate(keys):
        before = shown(key.dotted[0], exact) if at else ""
        parts.append(before + key.text() + (shown(key.dotted[1], exact) if key is not keys[-1] else ""))
    return ".".join(parts)


def pair_text(keys, node, exact, defaults):
    last = keys[-1].leaf
    return "".join((shown(last[0], exact, defaults[0]), path_text(keys, exact), shown(last[1], exact, " "), "=",
                    shown(node.decor[0], exact, " "), value_text(node, exact), shown(node.decor[1], exact, defaults[1])))


def value_text(node, exact):
    """A value without its own decor."""
    if node.kind == "scalar":
        return scalar_text(node)
    if node.kind == "array":
        values = [inner for inner in node.items if inner.is_value()]
        parts = [shown(inner.decor[0], exact, " " if at else "") + value_text(inner, exact) + shown(inner.decor[1], exact)
                 for at, inner in enumerate(values)]
    else:
        lines = list(inside_lines(node.slots, []))
        parts = [pair_text(keys, inner, exact, (" ", "" if line + 1 < len(lines) else " ")) for line, (keys, inner) in enumerate(lines)]
    comma = "," if parts and node.comma else ""
    return ("[%s]" if node.kind == "array" else "{%s}") % (",".join(parts) + comma + shown(node.trailing, exact))


def inside_lines(slots, keys):
    """The lines inside an inline table."""
    for key, node in slots:
        if node.is_line():
            yield keys + [key], node
        elif node.kind in ("inline", "table"):
            yield from inside_lines(node.slots, keys + [key])


def table_lines(slots, keys=()):
    """The lines of a table."""
    for key, node in slots:
        here = [*keys, key]
        if node.is_line():
            yield here, node
        elif node.kind == "inline":
            yield from inside_lines(node.slots, here)
        elif node.kind == "table" and node.dotted:
            yield from table_lines(node.slots, here)


def line_text(keys, node, exact):
    return pair_text(keys, node, exact, ("", "")) + "\n"


class Visit:
    """A table on the walk: its numbered path, its keys, and whether it is an element."""

    def __init__(self, path, keys, is_element, node):
        self.path, self.keys, self.is_element, self.node = path, keys, is_element, node

    def has_header(self):
        has_lines = any(True for _ in table_lines(self.node.slots))
        return bool(self.keys) and (self.is_element or not self.node.implicit or has_lines)

    def header(self, exact, is_first):
        last = self.keys[-1].leaf
        opening, closing = shown(last[0], exact), shown(last[1], exact)
        lifted = opening if "\n" in opening else ""
        inside = path_text(self.keys, exact) if lifted else opening + path_text(self.keys, exact) + closing
        before = lifted + shown(self.node.decor[0], exact, "" if is_first else "\n")
        return before + ("[[%s]]" if self.is_element else "[%s]") % inside + shown(self.node.decor[1], exact) + "\n"


def walk(node, path=(), keys=(), is_element=False):
    yield Visit(path, list(keys), is_element, node)
    for key, inner in node.slots:
        here, below = path + (key.name,), [*keys, key]
        if inner.kind == "table":
            yield from walk(inner, here, below)
        elif inner.kind == "tables":
            for number, element in enumerate(it for it in inner.items if it.kind == "table"):
                yield from walk(element, here + (number,), below, True)


def in_order(root):
    """The tables in the order of their headers. A dotted table has none."""
    seen, placed = 0, []
    for visit in walk(root):
        if not visit.node.dotted:
            seen = seen if visit.node.position is None else visit.node.position
            placed.append((bool(visit.keys), seen if visit.keys else 0, visit))
    return [visit for _, _, visit in sorted(placed, key=lambda it: it[:2])]


def statements(document):
    exact, made = document.exact, []
    for visit in in_order(document.root):
        if visit.has_header():
            made.append(visit.header(exact, not made))
        made.extend(line_text(keys, node, exact) for keys, node in table_lines(visit.node.slots))
    return made


def printed(document):
    exact, made = document.exact, statements(document)
    after = shown(document.root.decor[1], exact) + shown(document.trailing, exact)
    if exact and document.open and not after and made:
        made[-1] = re.sub("\r?\n\\Z", "", made[-1])
    return shown(document.root.decor[0], exact) + "".join(made) + after


def value_display(node):
    return shown(node.decor[0], False) + value_text(node, False) + shown(node.decor[1], False)


def display(node):
    """An item as rows write it."""
    if node is None:
        return "none"
    if node.kind == "table":
        return "table " + "".join(line_text(keys, inner, False) for keys, inner in table_lines(node.slots))
    return {"nothing": "placeholder", "tables": "array of tables %d" % len(node.items)}.get(node.kind) or value_display(node)


# ---- what fits


def dots(keys, exact):
    """What is beside the dots of a path."""
    return [shown(key.dotted[0], exact) for key in keys[1:]] + [shown(key.dotted[1], exact) for key in keys[:-1]]


def frame_fits(keys, node, exact, follows):
    white = dots(keys, exact) + [shown(keys[-1].leaf[1], exact), shown(node.decor[0], exact)]
    return (TRIVIA.fullmatch(shown(keys[-1].leaf[0], exact)) and all(map(WHITE.fullmatch, white))
            and follows(shown(node.decor[1], exact)) and value_fits(node, exact))


def value_fits(node, exact):
    if node.kind == "scalar":
        return True
    if node.kind == "array":
        around = [shown(side, exact) for inner in node.items if inner.is_value() for side in inner.decor]
        inside = all(value_fits(inner, exact) for inner in node.items if inner.is_value())
    else:
        around, inside = [], all(frame_fits(keys, inner, exact, TRIVIA.fullmatch) for keys, inner in inside_lines(node.slots, []))
    return inside and all(map(TRIVIA.fullmatch, around + [shown(node.trailing, exact)]))


def ends_line(text, exact):
    return LINE_END.fullmatch(text[:-1] if exact and text.endswith("\r") else text)


def header_fits(visit, exact):
    opening, closing = (shown(side, exact) for side in visit.keys[-1].leaf)
    inner = TRIVIA.fullmatch(opening) if "\n" in opening else WHITE.fullmatch(opening) and WHITE.fullmatch(closing)
    above, after = (shown(side, exact) for side in visit.node.decor)
    return inner and all(map(WHITE.fullmatch, dots(visit.keys, exact))) and TRIVIA.fullmatch(above) and ends_line(after, exact)


def is_too_late(first, second):
    """Whether the second header may not be printed after the first."""
    one, two = first.path, second.path
    if second.is_element and len(two) < len(one) and one[:len(two)] == two:
        return True
    at = len(one) - 1
    return first.is_element and len(two) > at and one[:at] == two[:at] and isinstance(two[at], int) and two[at] < one[at]


def fits(document):
    exact, root = document.exact, document.root
    if root.dotted or any(visit.is_element and visit.node.dotted for visit in walk(root)):
        return False
    order = in_order(root)
    headed = [visit for visit in order if visit.has_header()]
    if any(is_too_late(one, two) for at, one in enumerate(headed) for two in headed[at + 1:]):
        return False
    sides = [shown(side, exact) for side in root.decor]
    return bool(
        all(map(TRIVIA.fullmatch, sides)) and FINAL.fullmatch(shown(document.trailing, exact))
        and all(header_fits(visit, exact) for visit in headed)
        and all(frame_fits(keys, node, exact, lambda text: ends_line(text, exact))
                for visit in order for keys, node in table_lines(visit.node.slots)))


# ---- how a text makes a tree


def segments(path):
    """The keys of a path that is written as its segments: white space before, name, spelling, white space after."""
    return [Key(name, spelled, dotted=(before, after)) for before, name, spelled, after in path]


def add_pair(slots_of, keys, leaf, node, kind):
    """Adds a line or a pair below a table, or raises `Refused`. What dotted keys make is of the kind."""
    for key in keys[:-1]:
        at = slots_of.place(key.name)
        if at is None:
            slots_of.slots.append([key, Node(kind, dotted=True, implicit=kind == "table")])
            at = -1
        below = slots_of.slots[at][1]
        if below.kind != kind or not (below.dotted or kind == "table" and below.implicit):
            raise Refused("duplicate key")
        below.dotted, slots_of = True, below
    if slots_of.place(keys[-1].name) is not None:
        raise Refused("duplicate key")
    keys[-1].leaf = list(leaf)
    slots_of.slots.append([keys[-1], node])


def add_header(root, keys, leaf, decor, is_array, number):
    """Adds a table for a header, and returns it, or raises `Refused`."""
    here, (*above, last) = root, keys
    for key in above:
        at = here.place(key.name)
        if at is None:
            here.slots.append([key, Node("table", implicit=True)])
            at = -1
        below = here.slots[at][1]
        if below.kind not in ("table", "tables"):
            raise Refused("duplicate key")
        here = below if below.kind == "table" else below.items[-1]
    at = here.place(last.name)
    last.leaf = list(leaf)
    table = Node("table", decor=list(decor), position=number)
    if is_array:
        if at is None:
            here.slots.append([last, Node("tables")])
        elif here.slots[at][1].kind != "tables":
            raise Refused("duplicate key")
        here.slots[here.place(last.name)][1].items.append(table)
        return table
    if at is not None:
        old = here.slots[at][1]
        if old.kind != "table" or not old.implicit or old.dotted:
            raise Refused("duplicate key")
        # The key is kept from the table's own header, and stands where that does.
        table.slots = old.slots
        del here.slots[at]
    here.slots.append([last, table])
    return table


# ---- calls of slots


def reset(key):
    return Key(key.name)


def cleared(key):
    return Key(key.name, key.spelled)


def renamed(key, name):
    return Key(name, None, key.leaf, key.dotted)


def put(slots_of, key, node, present):
    """Changes the slot that is there by `present`, or adds one, and returns the old item."""
    at = slots_of.place(key.name)
    if at is None:
        slots_of.slots.append([key, node])
        return None
    old = slots_of.slots[at][1]
    slots_of.slots[at] = present(slots_of.slots[at])
    return old


def sort(node):
    """Sorts a table and the dotted ones inside by the bytes of names."""
    node.slots.sort(key=lambda slot: slot[0].name.encode())
    for _, inner in node.slots:
        if inner.kind == node.kind and inner.dotted:
            sort(inner)


def forget_positions(node):
    node.position = None
    for inner in [inner for _, inner in node.slots] + node.items:
        if inner.kind in ("table", "tables"):
            forget_positions(inner)


def last_position(node):
    """The greatest position of a table of an item, or 0."""
    inner = [inner for _, inner in node.slots] + node.items if node.kind in ("table", "tables") else []
    return max([node.position or 0, *map(last_position, inner)])


# ---- conversions


def format_slots(node):
    for slot in node.slots:
        if slot[1].is_value():
            slot[0], slot[1].decor = cleared(slot[0]), [None, None]


def format_array(node):
    values = [inner for inner in node.items if inner.is_value()]
    for at, inner in enumerate(values):
        inner.decor = [" " if at else "", ""]
    node.comma, node.trailing = False, ""


def made_value(node):
    if node.kind == "table":
        made = Node("inline", slots=[[key, made_value(inner)] for key, inner in node.slots])
        format_slots(made)
        return made
    if node.kind == "tables":
        made = Node("array", items=[made_value(inner) for inner in node.items])
        format_array(made)
        return made
    return node


def made_table(node):
    if node.kind != "inline":
        return node
    made = Node("table", slots=node.slots)
    format_slots(made)
    return made


def made_tables(node):
    values = [inner for inner in node.items if inner.is_value()]
    if node.kind != "array" or not node.items or any(inner.kind != "inline" for inner in values):
        return node
    return Node("tables", items=[made_table(inner) for inner in node.items])


# ---- places


def places(text):
    """The line and column of each byte, of the end, and of a byte beyond: as many characters begin before it on its line."""
    line, column, found, last = 1, 1, [], 0
    for at, byte in enumerate(text.encode()):
        found.append((line, column))
        last = last if byte & 0xC0 == 0x80 else at
        column += byte & 0xC0 != 0x80
        line, column = (line + 1, 1) if byte == 10 else (line, column)
    # The end is beside the last character.
    end = (found[last][0], found[last][1] + 1) if found else (1, 1)
    return found + [end, end]


# ---- comments


def feeds(text):
    """The lines of a text, each with its newline."""
    return re.findall("[^\n]*\n|[^\n]+", text)


def first_line(text):
    line = text.split("\n")[0]
    return line[:-1] if line.endswith("\r") else line


def rest_of(text):
    return text[len(first_line(text)):]


def comment_of(text):
    """The comment of the first line, or None."""
    words = first_line(text).lstrip(" \t")
    return words[1:] if words.startswith("#") else None


def comments(text):
    return [comment_of(line) for line in feeds(text) if comment_of(line) is not None]


def with_comment_line(body, text):
    head = text[:text.rfind("\n")] if "\n" in text else ""
    newline = "\r\n" if "\n" in text and head.endswith("\r") else "\n"
    return text + "#" + body + newline + text[len(text.rstrip(" \t")):]


def without_comments(text):
    return "".join(line for line in feeds(text) if comment_of(line) is None)


def with_comment(body, text):
    if body is None:
        return text if comment_of(text) is None else rest_of(text)
    line = first_line(text)
    before = line.rstrip(" \t") + " " if comment_of(text) is None else line[:len(line) - len(line.lstrip(" \t"))]
    return before + "#" + body + rest_of(text)


def may_stand(body):
    return body is None or plain(body, "")


def set_comment(decor, body):
    """Sets the comment after. A side that is unset stays so where there is none to remove."""
    if not may_stand(body):
        raise Refused("invalid comment")
    if body is not None or decor[1] is not None:
        decor[1] = with_comment(body, decor[1] or "")


# ---- arrays by line


class Lines:
    """An array whose values are put in and taken out with their lines. All of its items are values."""

    def __init__(self, array):
        self.array, self.items = array, array.items

    def last_suffix(self):
        return "" if self.array.comma or not self.items else self.items[-1].decor[1] or ""

    def gap(self, at):
        if at < len(self.items):
            return shown(self.items[at].decor[0], True, " " if at else "")
        return self.last_suffix() + self.array.trailing

    def set_gap(self, at, text):
        if at < len(self.items):
            self.items[at].decor[0] = text
        elif self.array.comma or not self.items:
            self.array.trailing = text
        else:
            self.items[-1].decor[1], self.array.trailing = text, ""

    def newline(self, gap):
        for text in [gap, *(inner.decor[0] or "" for inner in self.items), self.last_suffix(), self.array.trailing]:
            if "\n" in text:
                return "\r\n" if rest_of(text).startswith("\r") else "\n"
        return "\n"

    def indent(self, at):
        at = min(at, len(self.items) - 1)
        while at >= 0:
            texts = [self.items[at].decor[0] or ""] + ([self.items[at - 1].decor[1] or ""] if at else [])
            for text in texts:
                if "\n" in text:
                    return re.match("[ \t]*", text[text.rindex("\n") + 1:])[0]
            at -= 1
        return "    "

    def insert(self, at, node):
        gap, is_last = self.gap(at), at >= len(self.items)
        end, indent = self.newline(gap), self.indent(at)

        def moved(lines):
            return "".join(end + (indent + words if words else "") for words in (first_line(line).lstrip(" \t") for line in lines))

        def words(line):
            return first_line(line).lstrip(" \t")

        above = feeds(node.decor[0] or "")
        above = moved(line for line in (above[1:] if above and not words(above[0]) else above) if "\n" in line or words(line))
        after = node.decor[1] or ""
        own = first_line(after) if comment_of(after) is not None else ""
        after = own + moved(line for line in feeds(after)[1:] if words(line))
        if "\n" in gap or above or after:
            whole = gap if "\n" in gap else end + ("" if is_last else indent)
            gaps = first_line(whole) + above + end + indent, after + rest_of(whole)
        elif not is_last:
            gaps = gap, " "
        else:
            broken = self.items and "\n" in (self.items[-1].decor[0] or "")
            gaps = end + indent if broken else " " if at else "", gap
        if is_last and self.items and not self.array.comma:
            self.items[-1].decor[1] = ""
        node.decor = [gaps[0], None]
        self.items.insert(at, node)
        self.set_gap(at + 1, gaps[1])

    def remove(self, at):
        """Removes a value, and returns it with the decor that it takes along."""
        before, after, is_last = self.gap(at), self.gap(at + 1), at + 1 == len(self.items)
        node = self.items[at]
        suffix = node.decor[1] or "" if self.array.comma or not is_last else ""
        broken = "\n" in before
        taken = copy.deepcopy(node)
        if "\n" in after and (broken or at == 0):
            left = (first_line(before) if broken else "") + rest_of(after)
            taken.decor = [rest_of(before) if broken else before, suffix + first_line(after)]
        elif "\n" in after or is_last:
            has_comment = comment_of(before) is not None
            line_end = "\r\n" if rest_of(before).startswith("\r") else "\n"
            left = (first_line(before) + line_end if has_comment else "") + after
        else:
            left = before
        del self.items[at]
        if at == len(self.items):
            left = self.last_suffix() + left
        self.set_gap(at, left)
        self.array.comma = self.array.comma and bool(self.items)
        return taken

    def behind(self, at):
        if at + 1 < len(self.items):
            return self.items[at + 1].decor[0] or ""
        return self.array.trailing if not self.last_suffix().strip(" \t") else self.last_suffix()

    def comment(self, at):
        return comment_of(self.behind(at)) if at < len(self.items) else None

    def set_comment(self, at, body):
        if not may_stand(body):
            raise Refused("invalid comment")
        if body is None and self.comment(at) is None:
            return
        gap = self.gap(at + 1)
        if body is not None and "\n" not in gap:
            gap = self.newline(gap) + ("" if at + 1 >= len(self.items) else self.indent(at + 1))
        self.set_gap(at + 1, with_comment(body, gap))

    def remove_comments(self, at):
        text = self.items[at].decor[0] or ""
        if "\n" in text:
            self.items[at].decor[0] = first_line(text) + without_comments(rest_of(text))


# ---- calls by paths


def number_of(name):
    return int(name) if re.fullmatch("0|[1-9][0-9]*", name) else None


def element(node, name):
    """The place of the element that a name names, or None."""
    at = number_of(name)
    if at is None or at >= len(node.items):
        return None
    return at if (node.items[at].kind == "table" if node.kind == "tables" else node.items[at].is_value()) else None


def child(node, name):
    if node.kind in ("table", "inline"):
        return node.get(name)
    at = element(node, name) if node.kind in ("array", "tables") else None
    return None if at is None else node.items[at]


def item_at(node, path):
    for name in path:
        node = child(node, name)
        if node is None:
            return None
    return node


def replace(node, path, other):
    """Puts another item at a path that leads to one."""
    if not path:
        return other
    inner = replace(child(node, path[0]), path[1:], other)
    if node.kind in ("table", "inline"):
        node.slots[node.place(path[0])][1] = inner
    else:
        node.items[element(node, path[0])] = inner
    return node


def set_at(node, keys, value, headers=False):
    """Sets a value below an item, and returns the item."""
    if not keys:
        if node.kind in ("table", "tables"):
            raise Refused("wrong kind")
        if node.kind != "nothing":
            value.decor = node.decor
        return value
    key, *rest = keys
    if node.kind == "nothing":
        if headers:
            below = value if not rest else set_at(Node("nothing"), rest, value, True)
            return Node("table", implicit=bool(rest), slots=[[cleared(key), below]])
        return Node("inline", slots=[[cleared(key), set_at(Node("nothing"), rest, value)]])
    headers = headers and not node.is_value()
    if node.kind in ("array", "tables"):
        at = element(node, key.name)
        if at is None:
            raise Refused("no such path")
        node.items[at] = set_at(node.items[at], rest, value, headers)
    elif node.kind == "scalar":
        raise Refused("wrong kind")
    else:
        at = node.place(key.name)
        if at is None:
            node.slots.append([cleared(key), set_at(Node("nothing"), rest, value, headers)])
        else:
            node.slots[at][1] = set_at(node.slots[at][1], rest, value, headers)
    return node


def remove_at(node, path, by_line):
    if not path:
        raise Refused("no such path")
    *above, last = path
    there = item_at(node, above)
    if there is None or child(there, last) is None:
        raise Refused("no such path")
    if there.kind in ("table", "inline"):
        del there.slots[there.place(last)]
    elif there.kind == "array" and by_line:
        Lines(there).remove(int(last))
    else:
        del there.items[int(last)]


def rename(node, name, other):
    """Renames a slot, and returns what the call returns."""
    at = node.place(name)
    if at is None:
        return "Absent"
    if name != other and node.place(other) is not None:
        return "Taken"
    node.slots[at][0] = renamed(node.slots[at][0], other)
    return "Done"


def move_to(node, name, place):
    at = node.place(name)
    if at is not None:
        node.slots.insert(place, node.slots.pop(at))
    return at is not None


# ---- edits of `tomlfile`


def same(one, other):
    """Whether two values are equal, whatever their spelling."""
    if one.kind != other.kind or not one.is_value():
        return False
    if one.kind == "scalar":
        return one.value == other.value
    if one.kind == "array":
        return len(one.items) == len(other.items) and all(map(same, one.items, other.items))
    mine, others = ({key.name: inner for key, inner in node.slots if inner.is_value()} for node in (one, other))
    return mine.keys() == others.keys() and all(same(mine[name], others[name]) for name in mine)


def found(item):
    if item is None:
        raise Refused("no such path")
    return item


def slots_in(item):
    if found(item).kind not in ("table", "inline"):
        raise Refused("wrong kind")
    return item


def place_of(name, most):
    at = number_of(name)
    if at is None or at > most:
        raise Refused("no such path")
    return at


def table_from(value):
    if value.kind != "inline":
        raise Refused("wrong kind")
    return made_table(value)


def insert_table(tables, at, table):
    table.position = tables.items[at].position if at < len(tables.items) else None
    tables.items.insert(at, table)


def led(root, path):
    """How many keys of a path lead to an item."""
    for at, name in enumerate(path):
        root = child(root, name)
        if root is None:
            return at
    return len(path)


def unnumbered(root, path):
    if any(re.fullmatch("[0-9]+", name) for name in path[led(root, path) + 1:]):
        raise Refused("no such path")


def put_in(table, key, item):
    """Adds a slot to a table, or a value to an inline table."""
    if table.is_value() and not item.is_value():
        raise Refused("wrong kind")
    if slots_in(table).place(key.name) is not None:
        raise Refused("the key is there already")
    table.slots.append([key, item])


class Edits:
    """The edits by their names. Each changes the root, or raises `Refused`."""

    def __init__(self, root):
        self.root = root

    def set(self, path, value):
        self.root = set_at(self.root, [Key(name) for name in path], value)

    def header(self, path, value):
        unnumbered(self.root, path)
        self.root = set_at(self.root, [Key(name) for name in path], value, True)

    def table(self, path, value):
        at = led(self.root, path)
        if at == len(path):
            if not path or item_at(self.root, path).kind != "tables":
                raise Refused("no such path" if not path else "wrong kind")
            return insert_table(item_at(self.root, path), len(item_at(self.root, path).items), table_from(value))
        unnumbered(self.root, path)
        made = Node("tables", items=[table_from(value)])
        for name in reversed(path[at + 1:]):
            made = Node("table", implicit=True, slots=[[Key(name), made]])
        return put_in(item_at(self.root, path[:at]), Key(path[at]), made)

    def section(self, path):
        at = led(self.root, path)
        if at == len(path):
            raise Refused("the key is there already")
        unnumbered(self.root, path)
        blank = "" if all(item.kind == "nothing" for _, item in self.root.slots) else "\n"
        made = Node("table", decor=[blank, None], position=last_position(self.root) + 1)
        for name in reversed(path[at + 1:]):
            made = Node("table", implicit=True, slots=[[Key(name), made]])
        put_in(item_at(self.root, path[:at]), Key(path[at]), made)

    def remove(self, path):
        remove_at(self.root, path, True)

    def array(self, path):
        array = found(item_at(self.root, path))
        if array.kind not in ("array", "tables"):
            raise Refused("wrong kind")
        return array

    def append(self, path, value):
        self.put(self.array(path), None, value)

    def insert(self, path, value):
        if not path:
            raise Refused("no such path")
        self.put(self.array(path[:-1]), path[-1], value)

    def put(self, array, name, value):
        at = len(array.items) if name is None else place_of(name, len(array.items))
        if array.kind == "tables":
            insert_table(array, at, table_from(value))
        else:
            Lines(array).insert(at, value)

    def take(self, path, value):
        array = self.array(path)
        if array.kind == "tables":
            table_from(copy.deepcopy(value))
        at = next((at for at, it in enumerate(array.items) if same(made_value(copy.deepcopy(it)), value)), None)
        if at is None:
            raise Refused("no such element")
        if array.kind == "tables":
            del array.items[at]
        else:
            Lines(array).remove(at)

    def rename(self, path, name):
        if not path:
            raise Refused("no such path")
        how = rename(slots_in(item_at(self.root, path[:-1])), path[-1], name)
        if how != "Done":
            raise Refused("no such path" if how == "Absent" else "the key is there already")

    def move(self, path, to):
        if not path or not to:
            raise Refused("no such path")
        above, target = item_at(self.root, path[:-1]), item_at(self.root, to[:-1])
        if path[:-1] == to[:-1]:
            if above is None or above.kind != "tables":
                return self.rename(path, to[-1])
            at = place_of(path[-1], len(above.items))
            if at == len(above.items):
                raise Refused("no such path")
            table = above.items[at]
            rest = above.items[:at] + above.items[at + 1:]
            place = place_of(to[-1], len(rest))
            above.items = rest
            forget_positions(table)
            return insert_table(above, place, table)
        if to[:len(path)] == path:
            raise Refused("wrong kind")
        slot = slots_in(above).place(path[-1])
        if slot is None or above.slots[slot][1].kind == "nothing":
            raise Refused("no such path")
        key, item = above.slots[slot]
        put_in(found(target), renamed(key, to[-1]), item)
        forget_positions(item)
        return above.slots.pop(slot)

    def sort(self, path):
        sort(slots_in(item_at(self.root, path)))

    def comment(self, path, text):
        item = found(item_at(self.root, path) if path else None)
        if item.kind == "tables" or item.kind == "table" and (item.dotted or item.implicit):
            raise Refused("wrong kind")
        body = (text[1:] if text.startswith("#") else " " + text) if text else None
        if not may_stand(body):
            raise Refused("bad comment")
        set_comment(item.decor, body)
