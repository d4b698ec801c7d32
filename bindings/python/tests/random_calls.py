"""Makes random calls of the library, and ends with status 1 if one breaks what the header says.

    LD_PRELOAD=ASAN ASAN_OPTIONS=detect_leaks=0 python3 -m tests.random_calls [COUNT [SEED]]

COUNT is 1,000,000 if it is not named. Texts are parts of documents that were put together, bytes of which some were changed, and bytes that
are no UTF-8; some have a megabyte, and some 1 TB, as some rooms do. Rooms have each size up to what is needed and some bytes more. Two
threads make the calls side by side. Behind the room and before it are bytes that have to stay, and with the address sanitizer each text is a
block of its own.
"""

from __future__ import annotations

import ctypes
import mmap
import random
import sys
import threading

from toml_edit import _core

from .index_reading import nodes

PARTS = [b"a = 1\n", b"[a.b]\n", b"[[t]]\n", b"x.y = 'z' # c\r\n", b'"\\u00e9" = """\n"""\n', b"l = [1, [2], # c\n]\n", b"i = { j = 0x1, }\n"]
PARTS += [b"\xef\xbb\xbf", b"d = 1979-05-27T07:32:00Z", b"\n", b"\r", b"[", b"]", b"=", b"#\x01", b"\xff", b"'''", b"f = -inf\n", b"\0"]
PATHS = [b"a", b"a.b", b"t.0", b"x.y", b"l.1.0", b"i.j", b"", b"\xff", b"a..b", b"'q'.r", b'"\\u00e9"', b"t.0.n.m"]
VALUES = [b"1", b"'s'", b"[1, 2]", b"{ a = 1 }", b"1979-05-27", b"", b"\xff", b"{ a = 1, }", b"[", b"+inf", b'"""\n"""']
WORDS = [b"set", b"header", b"remove", b"append", b"insert", b"take", b"table", b"section", b"string", b"rename", b"move", b"sort", b"comment", b"other", b"\xff"]
# The statuses of a script that say of which edit they are.
OF_EDITS = {4, 5, 6, 7, 11, 12, 13, 14}
GUARD = 16
# Memory that is there once it is written to.
HUGE = 1 << 40
NO_RESERVE = 0x4000


def text(random_: random.Random) -> bytes:
    made = bytearray(b"".join(random_.choice(PARTS) for _ in range(random_.randrange(8))))
    if random_.randrange(8) == 0:
        made = bytearray(b"[" * random_.randrange(90)) + made
    for _ in range(random_.choice([0, 0, 0, 1, 3])):
        if made:
            made[random_.randrange(len(made))] = random_.randrange(256)
    return bytes(made)


def script(random_: random.Random) -> bytes:
    words = []
    for _ in range(random_.randrange(4)):
        word = random_.choice(WORDS)
        words += [word, random_.choice(PATHS)]
        if word not in (b"section", b"remove", b"sort"):
            words.append(random_.choice(VALUES + PATHS))
    return b"".join(word + b"\0" for word in words)[: None if random_.randrange(8) else -1]


def texts_of(name: str, random_: random.Random) -> list[bytes]:
    if name == "edit":
        return [text(random_), script(random_)]
    return [text(random_), random_.choice(PATHS), random_.choice(VALUES)][: _core._CALLS[name]]


def is_told(name: str, texts: list[bytes], status: int, needed: int) -> bool:
    """Whether a call without a text says what it has to: the number of an edit, or nothing."""
    if name != "edit" or status not in OF_EDITS:
        return status > 1 and needed == 0
    return (needed > 0 or status == 11) and needed <= texts[1].count(b"\0") + 1


def guarded(size: int, random_: random.Random) -> tuple[ctypes.Array, bytes]:
    filling = random_.randbytes(size + 2 * GUARD)
    return ctypes.create_string_buffer(filling, len(filling)), filling


def one(name: str, random_: random.Random) -> int:
    """Makes a call with three rooms or with each size of a room, and looks at what each says. Returns how many calls were made."""
    flags = random_.choice([0, 0, 1, 2, 3, 4, 2**32 - 1])
    texts = texts_of(name, random_)
    needed, status, whole = 0, 0, b""
    sizes = [1 << 12, None, random_.randrange(64)]
    if random_.randrange(256) == 0:
        status, needed = _core.raw(name, flags, texts, ctypes.create_string_buffer(0))
        sizes = [1 << 12, *range(needed + 2)]
    for size in sizes:
        size = random_.choice([needed, max(needed - 1, 0), random_.randrange(needed + 1)]) if size is None else size
        block, filling = guarded(size, random_)
        room = (ctypes.c_char * size).from_buffer(block, GUARD)
        before = [bytes(it) for it in texts]
        found, wanted = _core.raw(name, flags, texts, room)
        left = block.raw
        assert before == texts
        assert left[:GUARD] == filling[:GUARD] and left[GUARD + size :] == filling[GUARD + size :], "a write past the room"
        if found == 0:
            assert wanted <= size and left[GUARD + wanted : GUARD + size] == filling[GUARD + wanted : GUARD + size]
            assert not whole or left[GUARD : GUARD + wanted] == whole
            whole = left[GUARD : GUARD + wanted]
        else:
            assert left == filling, "a write without a text"
            assert wanted > size if found == 1 else is_told(name, texts, found, wanted), (name, flags, texts, found, wanted)
        if size == 1 << 12:
            needed, status = wanted, found
        else:
            assert wanted == needed and (found == status or {found, status} == {0, 1}), (name, flags, texts)
    return len(sizes)


def formatted(random_: random.Random) -> int:
    """Formats a text twice, and looks whether it means the same and stays."""
    flags = random_.randrange(4)
    given = text(random_) if random_.randrange(2000) else text(random_) + b"".join(b"k%d  =  [ %d,2 ] # c\n" % (at, at) for at in range(40000))
    try:
        once = _core.call("format", flags, given)
    except ValueError:
        return 2
    assert _core.call("format", flags, once) == once, given
    assert _core.call("json", flags, once, b"") == _core.call("json", flags, given, b""), given
    return 4


def huge(name: str, space: ctypes.Array, random_: random.Random) -> int:
    """Makes a call with a word of 1 TB that is no UTF-8, one with a room of that size, and an index of such a text."""
    texts = texts_of(name, random_)
    room, filling = guarded(64, random_)
    space[0] = b"\xff"
    if len(texts) > 1:
        largest = random_.randrange(1, len(texts))
        words = [word for at, it in enumerate(texts) for word in ((space, HUGE) if at == largest else (it, len(it)))]
        answer = _core._FUNCTIONS[name](0, *words, room, 64)
        assert is_told(name, texts, answer.status, answer.needed) and room.raw == filling
    answer = _core._LIBRARY.toml_edit_index(0, ctypes.cast(space, ctypes.c_char_p), HUGE, room, 0, ctypes.cast(room, ctypes.c_char_p), 64)
    assert (answer.status, answer.needed) == (3, 0) and room.raw == filling
    texts = texts_of(name, random_)
    words = [word for it in texts for word in (it, len(it))]
    answer = _core._FUNCTIONS[name](0, *words, space, HUGE)
    small = ctypes.create_string_buffer(answer.needed)
    assert _core.raw(name, 0, texts, small) == (answer.status, answer.needed)
    assert answer.status == 0 and space[: answer.needed] == small.raw or answer.status > 1 and space[0] == b"\xff"
    return 4


def checked(random_: random.Random) -> int:
    given = text(random_)
    error = _core.check(random_.choice([0, 1, 2, 3]), given)
    status, _needed = _core.raw("print", 0, [given], ctypes.create_string_buffer(0))
    assert error is None or error.line is None or error.span[0] <= error.span[1] <= len(given)
    assert status != 2 or error is not None
    return 2


def indexed(random_: random.Random) -> int:
    """Reads an index into rooms of several sizes, and looks at what each says, and at what another program reads."""
    flags, given = random_.randrange(5), text(random_)
    wanted = 0
    for step in range(3):
        count, size = (1 << 8, len(given)) if step == 0 else (random_.choice([wanted, max(wanted - 1, 0), wanted + 1]), random_.choice([len(given), 0, 3]))
        (block, filling), (names, filled) = guarded(136 * count, random_), guarded(size, random_)
        room, named = (ctypes.c_char * (136 * count)).from_buffer(block, GUARD), (ctypes.c_char * size).from_buffer(names, GUARD)
        answer = _core._LIBRARY.toml_edit_index(flags, given, len(given), room, count, named, size)
        left, behind = block.raw, names.raw
        if answer.status == 0:
            rows = memoryview(left[GUARD : GUARD + 136 * answer.needed]).cast("N").tolist()
            found = [tuple(rows[at : at + 17]) for at in range(0, len(rows), 17)]
            assert answer.needed <= count and found == nodes(given, bool(flags & 1)), given
            left = left[:GUARD] + filling[GUARD : GUARD + 136 * answer.needed] + left[GUARD + 136 * answer.needed :]
            used = max(max(row[4], row[6]) for row in found)
            behind = behind[:GUARD] + filled[GUARD : GUARD + used] + behind[GUARD + used :]
        assert left == filling and behind == filled, "a write past the room"
        assert answer.status != 1 or answer.needed > count or size < len(given)
        assert answer.status < 2 or answer.needed == 0
        wanted = answer.needed
    return 3


def ran(random_: random.Random) -> int:
    """Runs a command with large rooms and with others, and looks at what each says."""
    words = random_.choice([[], [b"exact"], [b"strict"], [b"exact", b"strict"]])
    words = [*words, random_.choice([b"print", b"get", b"set", b"remove", b"\xff", b""]), random_.choice(PATHS), random_.choice(VALUES)]
    said = b"".join(word + b"\0" for word in words[: random_.randrange(len(words) + 1)])
    given = text(random_)
    wanted: tuple = ()
    for _ in range(3):
        sizes = [random_.choice([need, max(need - 1, 0), need + 3]) for need in wanted[1:]] if wanted else [1 << 13, 1 << 10]
        blocks = [guarded(size, random_) for size in sizes]
        rooms = [(ctypes.c_char * size).from_buffer(block, GUARD) for size, (block, _filling) in zip(sizes, blocks)]
        told = _core._Sizes()
        parts = [part for room, size in zip(rooms, sizes) for part in (room, size)]
        status = _core._LIBRARY.toml_edit_run(said, len(said), given, len(given), *parts, ctypes.byref(told))
        needs = (told.output, told.errors)
        fits = all(need <= size for need, size in zip(needs, sizes))
        assert status in (0, 1, 2, 5) and (status == 5) == (not fits) and (status == 5 or needs[status == 0] == 0), (status, needs)
        for need, size, (block, filling) in zip(needs, sizes, blocks):
            left = block.raw
            written = need if fits else 0
            assert left[:GUARD] == filling[:GUARD] and left[GUARD + written :] == filling[GUARD + written :], "a write past the text"
        assert not wanted or needs == wanted[1:]
        wanted = wanted or (status, *needs)
    return 3


def work(count: int, seed: int, made: list[int], faults: list) -> None:
    random_ = random.Random(seed)
    names = list(_core._FUNCTIONS)
    space = (ctypes.c_char * HUGE).from_buffer(mmap.mmap(-1, HUGE, flags=mmap.MAP_PRIVATE | mmap.MAP_ANONYMOUS | NO_RESERVE))
    try:
        while made[0] < count:
            made[0] += one(random_.choice(names), random_)
            other = random_.randrange(32)
            if other < 4:
                made[0] += checked(random_)
            elif other < 8:
                made[0] += ran(random_)
            elif other < 10:
                made[0] += formatted(random_)
            elif other < 14:
                made[0] += indexed(random_)
            elif other == 14:
                made[0] += huge(random_.choice(names), space, random_)
    except BaseException as fault:  # noqa: BLE001
        faults.append((seed, fault))
        raise


def main() -> int:
    count = int(sys.argv[1]) if sys.argv[1:] else 1_000_000
    seed = int(sys.argv[2]) if sys.argv[2:] else 1
    faults: list = []
    made = [[0], [0]]
    threads = [threading.Thread(target=work, args=(count // 2, seed + it, made[it], faults)) for it in range(2)]
    for thread in threads:
        thread.start()
    for thread in threads:
        thread.join()
    print("%d calls in two threads, %d faults: %s" % (made[0][0] + made[1][0], len(faults), _core.built()))
    return 1 if faults else 0


if __name__ == "__main__":
    sys.exit(main())
