"""Texts as cases have them: in quotes, with escapes for what is not printed."""

NAMED = {10: "\\n", 9: "\\t", 13: "\\r", 0: "\\0"}


def escaped(text):
    """The bytes of a text (UTF-8) with `\\n`, `\\t`, `\\r` and `\\0`, and `\\xHH` for a quote, a backslash and what is not ASCII's."""
    data = text.encode() if isinstance(text, str) else text
    return "".join(NAMED.get(byte) or (chr(byte) if 32 <= byte < 127 and byte not in b'"\\' else f"\\x{byte:02x}") for byte in data)


def quoted(text):
    return f'"{escaped(text)}"'
