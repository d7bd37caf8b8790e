"""Which descriptions are taken and which are not (docs/FORMATS.md, "What is TOML"), each with what `compile` says."""

PLAIN = b'format = "y8"\nwidth = 16\nheight = 1\nfields = "top"\npages = [0x20000]\n'
GOOD, NOT_TOML = "words 8 pages 1\n", "description: not toml\n"


def width(value):
    return PLAIN.replace(b"16", value)


def name(value):
    return PLAIN.replace(b"width", value)


def more(line):
    return PLAIN + line


def values(key, *given):
    return [more(key + b" = " + value + b"\n") for value in given]


def says(text, *descriptions):
    return [(description, f"description: {text}\n") for description in descriptions]


def nested(opening, closing, depth):
    return more(b"a = " + opening * depth + b"1" + closing * depth + b"\n")


TAKEN = [
    PLAIN, b"\xef\xbb\xbf" + PLAIN, PLAIN.replace(b"\n", b"\r\n"), PLAIN[:-1], more(b"#\t \xc3\xa9\n"),
    more(b"fill = -0\n"), more(b"chroma_first = [0]\nvbi_skip = [255]\nvbi_stride = 0\n"),
    width(b"0x10"), width(b"0o20"), width(b"0b10000"), width(b"1_6"), width(b"+16"),
    name(b'"width"'), name(b"'width'"), name(b'"wi\\u0064th"'),
    PLAIN.replace(b'"y8"', b'"""\ny8"""'), PLAIN.replace(b'"y8"', b"'y8'"), PLAIN.replace(b'"y8"', b"'''y8'''"),
    PLAIN.replace(b'"y8"', b'"\\x798"'), PLAIN.replace(b"[0x20000]", b"[ # one\n0x20000 # page\n,\n]"),
]  # fmt: skip
REFUSED = [
    b"\xef\xbb\xbf\xef\xbb\xbf" + PLAIN, PLAIN.replace(b"\n", b"\r"), more(b"# \x01\n"), more(b"# \xff\n"),
    width(b"016"), width(b"0X10"), width(b"1__6"), more(b"fill = 00\n"), width(b"9223372036854775808"),
    width(b"-9223372036854775809"), more(b"width = 16\n"), more(b"\xc3\xa9 = 1\n"), more(b"base = 4096 fill = 0\n"),
    nested(b"[", b"]", 81), nested(b"{a=", b"}", 81), more(b"[" + b".".join([b"a"] * 81) + b"]\n"),
    more(b".".join([b"a"] * 81) + b" = 1\n"),
]  # fmt: skip
CASES = (
    [(text, GOOD) for text in TAKEN]
    + [(text, NOT_TOML) for text in REFUSED]
    + says("missing key format", b"", b"# nothing\n", b"width = 16\n")
    + says("missing key width", PLAIN.replace(b"width = 16\n", b""))
    + says("wrong kind of key width", *map(width, [b"16.0", b"1e1", b"inf", b"1979-05-27", b"07:32", b"true", b'"16"']))
    + says("wrong kind of key width", name(b"width.x"), PLAIN.replace(b"width = 16\n", b"") + b"[width]\n")
    + says("out of range key width", *map(width, [b"-1", b"4294967296", b"9223372036854775807"]))
    + says("out of range key format", PLAIN.replace(b"y8", b"Y8"), PLAIN.replace(b'"y8"', b'"\\e"'))
    + says("out of range key chroma_first", *values(b"chroma_first", b"[1]", b"[]", b"[0, 0]", b"[-1]"))
    + says("out of range key vbi_skip", *values(b"vbi_skip", b"[256]", b"[]", b"[0, 0]", b"[-1]"))
    + says("out of range key vbi_stride", *values(b"vbi_stride", b"-1", b"4294967296"))
    + says("wrong kind of key chroma_first", *values(b"chroma_first", b"0", b"[[0]]", b"[0.5]", b"[true]"))
    + says("wrong kind of key vbi_skip", *values(b"vbi_skip", b"0", b"[[0]]", b"[0.5]", b"[true]"))
    + says("wrong kind of key vbi_stride", *values(b"vbi_stride", b"[0]", b"1.0", b"true"))
    + says("unknown key Beta", more(b"zeta = 1\nalpha = 2\nBeta = 3\n"))
    + says("unknown key a\nb", more(b'"a\\nb" = 1\n'))
    + says("unknown key a", nested(b"[", b"]", 80), nested(b"{a=", b"}", 80), more(b"a = {b = 1,\n c = 2,}\n"))
    + says("unknown key a", more(b"[" + b".".join([b"a"] * 80) + b"]\n"), more(b".".join([b"a"] * 80) + b" = 1\n"))
)
