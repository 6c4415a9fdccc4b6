"""The texts of a PDF as Chromium makes it (standard library only)."""

import re
import zlib


class Document:
    """As much of the format as is needed; of a PDF that is made in another way few texts or none are found."""

    def __init__(self, data):
        self.objects = dict(re.findall(rb"\n(\d+) 0 obj\n(.*?)\nendobj", data, re.S))

    def pages(self):
        """For each page the list of its texts."""
        bodies = self.objects.values()
        return [self.texts(body) for body in bodies if re.search(rb"/Type /Page\b", body)]

    def texts(self, page):
        named = re.findall(rb"/(F\d+) (\d+) 0 R", page)
        fonts = {name: self.font(self.objects.get(number, b"")) for name, number in named}
        content = self.stream(page, rb"/Contents")
        return [text(shown, fonts) for shown in re.findall(rb"\bBT\n(.*?)\nET\b", content, re.S)]

    def font(self, body):
        """How many bytes a code has, and what each code stands for."""
        return 1 if b"/Type3" in body else 2, meanings(self.stream(body, rb"/ToUnicode"))

    def stream(self, body, key):
        """The stream that an object names under a key."""
        number = re.search(key + rb" (\d+) 0 R", body)
        data = self.objects.get(number and number[1], b"").partition(b"stream\n")[2]
        return zlib.decompressobj().decompress(data)


def meanings(cmap):
    """What codes stand for, by a font's map: the first code of some, the last where they are several, and the first one's meaning."""
    found = {}
    for first, last, meaning in re.findall(rb"<(\w+)> (?:<(\w+)> )?<(\w+)>", cmap):
        first, begin = int(first, 16), bytes.fromhex(meaning.decode()).decode("utf-16-be", "replace")
        codes = range(first, int(last, 16) + 1 if last else first + 1)
        found.update((code, begin[:-1] + chr(ord(begin[-1]) + code - first)) for code in codes)
    return found


def text(shown, fonts):
    """The characters of a text: its codes, in hexadecimal, are those of the font that is named before."""
    found, width, meaning = "", 2, {}
    for name, digits in re.findall(rb"/(F\d+) |<(\w+)>", shown):
        width, meaning = fonts.get(name, (width, meaning))
        codes = bytes.fromhex(digits.decode())
        places = range(0, len(codes), width)
        found += "".join(meaning.get(int.from_bytes(codes[at:at + width], "big"), "\ufffd") for at in places)
    return found
