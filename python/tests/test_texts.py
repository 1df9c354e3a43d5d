"""Tokens of scenes and shaders with their places."""
from hypothesis import given
from hypothesis import strategies as st

from reyes import rib, shader

PIECES = st.lists(
    st.sampled_from([b'"', b"\\", b"#", b"\n", b" ", b"[", b"]", b"1", b"e", b".", b"-", b"Color", b"/*", b"*/", b"//", b"(", b"\xff", b"\r", b"=", b";"]),
    max_size=30,
).map(b"".join)


def test_tokens_of_a_scene() -> None:
    found = list(rib.tokens(b'# a "comment"\n Color [1 -.5e1]\n"a\\n\\"b" 2x "\\q"'))
    assert [(it.kind, it.value, it.line, it.column) for it in found] == [
        ("name", "Color", 2, 2), ("open", "[", 2, 8), ("number", 1.0, 2, 9), ("number", -5.0, 2, 11), ("close", "]", 2, 16),
        ("string", 'a\n"b', 3, 1), ("bad", "L4", 3, 10), ("bad", "L3", 3, 13),
    ]


def test_requests_of_a_scene() -> None:
    text = b'Format 16 16 1e0 # Format\nDisplay "Display" "file"\n  "rgb" WorldBegin'
    found = list(rib.requests(text))
    assert [(it.name, it.line, it.column, len(it.arguments)) for it in found] == [("Format", 1, 1, 3), ("Display", 2, 1, 3), ("WorldBegin", 3, 9, 0)]
    assert found[1].arguments[2].line == 3 and found[1].arguments[2].column == 3
    assert text[found[1].arguments[0].start : found[1].arguments[0].end] == b'"Display"'


def test_tokens_before_the_first_name() -> None:
    assert [(it.name, [token.value for token in it.arguments]) for it in rib.requests(b"1 2 Sides 1")] == [("", [1.0, 2.0]), ("Sides", [1.0])]


@given(PIECES | st.binary(max_size=60))
def test_a_scenes_tokens_and_requests_cover_it(data: bytes) -> None:
    whole = list(rib.tokens(data))
    assert all(a.end <= b.start for a, b in zip(whole, whole[1:]))
    for it in whole:
        assert data[it.start : it.end].decode("latin-1") == it.text
        assert it.line == 1 + data.count(b"\n", 0, it.start) and it.column == it.start - data.rfind(b"\n", 0, it.start)
    for request in rib.requests(data):
        assert request.line == 1 + data.count(b"\n", 0, request.start) and isinstance(request.arguments, list)


@given(st.text(st.characters(min_codepoint=32, max_codepoint=126) | st.sampled_from("\t\n"), max_size=20))
def test_what_is_quoted_is_read_back(text: str) -> None:
    (token,) = rib.tokens(rib.quoted(text).encode())
    assert (token.kind, token.value) == ("string", text)


def test_what_a_shader_declares() -> None:
    text = b"""/* two */ float twice(float x) { return 2 * x; }
surface wood(float Ka = 1, Kd = max(.5, 0); varying color dark = color(.1, .2, .3); string map = "a.ppm";)
{ Ci = texture(map) * twice(Kd); }"""
    found = shader.declared(text)
    assert found is not None and (found.kind, found.name) == ("surface", "wood")
    assert [(it.detail, it.type, it.name, it.default) for it in found.parameters] == [
        ("uniform", "float", "Ka", "1"), ("uniform", "float", "Kd", "max(.5, 0)"),
        ("varying", "color", "dark", "color(.1, .2, .3)"), ("uniform", "string", "map", '"a.ppm"'),
    ]
    assert [(it.type, it.name, it.line) for it in found.functions] == [("float", "twice", 1)]
    assert text[slice(*found.body)].startswith(b"{ Ci") and text[slice(*found.body)].endswith(b"}")
    assert shader.strings(text) == {"a.ppm"}


@given(PIECES | st.binary(max_size=60))
def test_a_broken_shader_is_read(data: bytes) -> None:
    for it in shader.tokens(data):
        assert data[it.start : it.end].decode("latin-1") == it.text and it.line == 1 + data.count(b"\n", 0, it.start)
    shader.declared(data)
    shader.strings(data)
