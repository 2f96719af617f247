"""The words of a script of keys and values: how byte strings are spelled."""

_PLAIN = {byte: chr(byte) for byte in range(0x21, 0x7F)}
_PLAIN[0x5C] = "\\\\"
_SPELLED = [_PLAIN.get(byte, f"\\{byte:02x}") for byte in range(256)]


def word_of(text):
    """The one word that spells these bytes."""
    if text in (b"", b"-"):
        return "\\2d" if text else "-"
    return "".join([_SPELLED[byte] for byte in text])


def bytes_of(word):
    """The bytes that a word spells, or None if it spells none."""
    text, at = bytearray(), 0
    while at < len(word):
        if word[at] != "\\":
            text.append(ord(word[at]))
            at += 1
        elif word[at + 1 : at + 2] == "\\":
            text.append(0x5C)
            at += 2
        else:
            try:
                text.append(int(word[at + 1 : at + 3], 16))
            except ValueError:
                return None
            at += 3
    text = b"" if word == "-" else bytes(text)
    return text if word_of(text) == word else None
