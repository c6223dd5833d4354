"""Logs in JSON whose names, escapes or bytes are odd, with what has to be answered."""

from case import HEADER, TWO_ROWS
from json_texts import HOST, LENGTH, NOTE, RESYNC, RIGHT, SHAPE, SYNTAX, TEXT, changed, log_of, refused, with_entry, written
from log_limits import fault
from report_limits import RIGHT as REPORT
from second_limits import HEADER as SECOND_HEADER


def named_host(name):
    """A log whose host has this name, in all that names it."""
    return log_of([changed(HOST, b"name", b'"%s"' % name)], [changed(NOTE, b"host", b'"%s"' % name)])


def named_row(name):
    """A log whose row has this name."""
    return with_entry(NOTE, changed(NOTE, b"name", b'"%s"' % name))


def names():
    """Lengths and letters of names."""
    for length in (1, 32, 33, 1_000_000, 0):
        name = b"a" * length
        host, row = f"a host's name of {length} letters", f"a row's name of {length} letters"
        if length in (1, 32):
            yield written(host, named_host(name),
                          SECOND_HEADER + b"host,%s,2,1\nlatency,%s,5,60\nnote,%s,10,n\n" % (name, name, name))
            yield written(row, named_row(name), TEXT.replace(b",n\n", b",%s\n" % name))
        else:
            yield refused(host, named_host(name), fault(4, 2))
            yield refused(row, named_row(name), fault(8, 5))
    for name in (b"true", b"false", b"inf"):
        yield refused(f"a host named {name.decode()}", named_host(name), fault(4, 2))
        yield written(f"a row named {name.decode()}", named_row(name), TEXT.replace(b",n\n", b",%s\n" % name))
    for name in (b"A", b"1a", b"_a", b"a-b", b"a b", b" a", b"a ", b"a,b", b"a;b", b"a.b", b"a/b", b"a'b", b"\x7f", b"\xc3\xa9",
                 b"a\xc2\x85",
                 b"\xe2\x80\xa8", b"\xef\xbb\xbfa", b"\xf0\x9f\x98\x80", b"a\xcc\x81"):
        yield refused("a host with another sign in its name", named_host(name), fault(4, 2))
        yield refused("a row with another sign in its name", named_row(name), fault(8, 5))
    for name in (b"b", b"A", b"", b"a" * 33, b"a" * 1_000_000, b"aa", b"\\u0000a"):
        unknown = b'"%s"' % name
        yield refused("a row of a host that there isn't", with_entry(NOTE, changed(NOTE, b"host", unknown)), fault(6, 5))
        yield refused("a resync of a host that there isn't", with_entry(RESYNC, changed(RESYNC, b"host", unknown)), fault(6, 4))


# Escapes of signs that no name has, and what is no escape.
SIGNS = (b'\\"', b"\\\\", b"\\/", b"\\b", b"\\f", b"\\n", b"\\r", b"\\t", b"\\u0000", b"\\u000a", b"\\u0022", b"\\u005c",
         b"\\u007f",
         b"\\u0080", b"\\u00e9", b"\\u2028", b"\\ud7ff", b"\\ue000", b"\\uffff", b"\\ufeff", b"\\ufffd", b"\\ud800\\udc00",
         b"\\ud83d\\ude00", b"\\uD83D\\uDE00", b"\\udbff\\udfff", b"n\\nnote,a,11,m", b"n\\r\\nset,a,11,n", b'n\\",\\"')
NO_ESCAPES = (b"\\", b"\\u", b"\\u0", b"\\u006", b"\\u00g1", b"\\u 061", b"\\u+061", b"\\U0061", b"\\x61", b"\\a", b"\\v",
              b"\\0", b"\\'",
              b"\\N", b"\\u{61}", b"\\ ", b"\\\n")
HALVES = (b"\\ud83d", b"\\ude00", b"\\ud800", b"\\udbff", b"\\udc00", b"\\udfff", b"\\ud83d\\ud83d", b"\\ude00\\ud83d",
          b"\\ud83dn",
          b"\\ud83d\\n", b"\\ud83d\\u", b"\\ud83d\\u0061", b"\\ud83d\\ude0", b"\\ud83d \\ude00", b"\\ud83d\xf0\x9f\x98\x80")


def escapes():
    """Escapes in a row's name, in a host's, in a key, and in a value that another one hides."""
    for escape in (b"\\u006e", b"\\u006E"):
        yield written(f"a name with the escape {escape.decode()}", named_row(escape), TEXT)
    yield written("all letters in escapes", named_host(b"\\u0061\\u0062"),
                  SECOND_HEADER + b"host,ab,2,1\nlatency,ab,5,60\nnote,ab,10,n\n")
    for title, signs, line in (
        ("signs in escapes", SIGNS, None), ("what is no escape", NO_ESCAPES, SYNTAX), ("half of a pair", HALVES, SYNTAX),
    ):
        for sign in signs:
            hidden = RIGHT.replace(b'"name":"n"', b'"name":"%s","name":"n"' % sign)
            yield refused(f"{title}, in a row's name", named_row(sign), line or fault(8, 5))
            yield refused(f"{title}, behind a letter", named_row(b"z" + sign), line or fault(8, 5))
            yield refused(f"{title}, before a letter", named_row(sign + b"z"), line or fault(8, 5))
            yield refused(f"{title}, in a host's name", named_host(sign), line or fault(4, 2))
            yield refused(f"{title}, in a kind", with_entry(NOTE, changed(NOTE, b"kind", b'"%s"' % sign)), line or fault(3, 5))
            yield refused(f"{title}, in a key", with_entry(NOTE, (*NOTE, (sign, b"0"))), line or SHAPE)
            yield refused(f"{title}, hidden", hidden, line) if line else written(f"{title}, hidden", hidden, TEXT)


# Bytes that aren't UTF-8: no beginning, too few, a longer form than there need be, half of a pair, beyond the last letter.
NO_TEXT = (b"\xff", b"\xfe", b"\x80", b"\xbf", b"\xc3", b"\xe2\x82", b"\xf0\x9f\x98", b"\xc3n", b"\xc0\x80", b"\xc1\xaf",
           b"\xe0\x80\xaf",
           b"\xf0\x80\x80\xaf", b"\xed\xa0\x80", b"\xed\xbf\xbf", b"\xed\xa0\xbd\xed\xb8\x80", b"\xf4\x90\x80\x80",
           b"\xf5\x80\x80\x80",
           b"\xf8\x88\x80\x80\x80", b"\xfc\x84\x80\x80\x80\x80")


def odd_bytes():
    """Bytes that aren't UTF-8 and control characters, in strings and around them."""
    controls = [bytes([code]) for code in range(32)]
    for title, texts in (("not UTF-8", NO_TEXT), ("a control character", controls)):
        for text in texts:
            hidden = RIGHT.replace(b'"name":"n"', b'"name":"%s","name":"n"' % text)
            yield refused(f"{title}, in a row's name", named_row(text), SYNTAX)
            yield refused(f"{title}, in a host's name", named_host(b"a" + text), SYNTAX)
            yield refused(f"{title}, in a key", with_entry(HOST, ((text, b"0"), *HOST)), SYNTAX)
            yield refused(f"{title}, hidden", hidden, SYNTAX)
            if text not in (b"\t", b"\n", b"\r"):
                yield refused(f"{title}, before the value", text + RIGHT, SYNTAX)
                yield refused(f"{title}, behind the value", RIGHT + text, SYNTAX)
                yield refused(f"{title}, before a comma", RIGHT.replace(b",", text + b",", 1), SYNTAX)
    for text in (b"\xc2\xa0", b"\xe2\x80\xa8", b"\xef\xbb\xbf", b"\xc2\x85", b"\xe3\x80\x80", b"\x7f"):
        yield refused("another blank, before the value", text + RIGHT, SYNTAX)
        yield refused("another blank, behind the value", RIGHT + text, SYNTAX)
    for coding in ("utf-16", "utf-16-le", "utf-16-be", "utf-32", "utf-32-le"):
        yield refused(f"a log in {coding}", RIGHT.decode().encode(coding), SYNTAX)


def around():
    """What stands before the value, behind it and between its parts, and files that are something else."""
    for title, data in (
        ("blanks of each kind around it", b" \t\r\n" + RIGHT + b"\n\r\t "), ("blanks around each sign", spaced(b" ")),
        ("newlines around each sign", spaced(b"\r\n")), ("tabs around each sign", spaced(b"\t")),
    ):
        yield written(title, data, TEXT)
    for text in (RIGHT, b"{}", b"[]", b"null", b"0", b'""', b",", b"]", b"}", b";", b"//", b"# end", b"\0", b"x"):
        yield refused("something behind the value", RIGHT + b"\n" + text, SYNTAX)
        yield refused("something before the value", text + b"\n" + RIGHT, SYNTAX)
    for data in (
        b"", b" ", b"\n", b"\0", b"{", b"[", b'"', b"-", b"n", b"nul", b"nulll", b"tru", b"True", b"a", b"{]", b"[}", b"{:}",
        b"{,}", b"[,]",
        b"[1,]", b"[1 2]", b"[1;2]", b'{"a"}', b'{"a":}', b'{"a":1,}', b'{"a" 1}', b'{"a":1 "b":2}', b"{a:1}", b"{1:1}",
        b"{null:1}",
        b"{'a':1}", b'{"a":1,,"b":2}', b"/* */ {}", b"// a\n{}", b"undefined", b"(0)", b"1 2", b"[] []", b"{}{}", b"0x1",
        b"1,2",
    ):
        yield refused("what is no JSON", data, SYNTAX)
    for data in (b"{}", b"[]", b"null", b"true", b"false", b"0", b"-1", b"1e3", b'""', b'"hosts"', b"[[],[]]",
                 b'[{"hosts":[],"events":[]}]',
                 b"[" + RIGHT + b"]", b'{"log":' + RIGHT + b"}", b'"' + RIGHT.replace(b'"', b'\\"') + b'"'):
        yield refused("another value", data, SHAPE)
    for title, data in (
        ("a log file", TWO_ROWS), ("its header alone", HEADER), ("a file of times", b"10\n15\n"), ("a report", REPORT),
        ("a log file of version 2", TEXT), ("a line of JSON for each entry", b'{"hosts":[]}\n{"events":[]}\n'),
        ("single quotes", RIGHT.replace(b'"', b"'")), ("no quotes", RIGHT.replace(b'"', b"")),
        ("a comma behind the last entry", last_comma()),
        ("commas left out", RIGHT.replace(b",", b" ")), ("equal signs for colons", RIGHT.replace(b":", b"=")),
        ("4 MiB of a log file", (HEADER + b"host,a,0,0\n" * 400_000)[:LENGTH]),
    ):
        yield refused(title, data, SYNTAX)
    yield refused("a time alone", b"10\n", SHAPE)


def spaced(blank):
    """The log with blanks around each sign."""
    spread = RIGHT
    for sign in (b"{", b"}", b"[", b"]", b",", b":"):
        spread = spread.replace(sign, blank + sign + blank)
    return spread


def last_comma():
    """The log with a comma behind the last entry of its events."""
    return RIGHT[:-2] + b"," + RIGHT[-2:]


def cases():
    """All cases of names, escapes and bytes of logs in JSON."""
    for some in (names, escapes, odd_bytes, around):
        yield from some()
