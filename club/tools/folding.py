"""Any text as the printable ASCII that the judge reads."""
import re
import textwrap
import unicodedata

SPELLED = {"ä": "ae", "ö": "oe", "ü": "ue", "Ä": "Ae", "Ö": "Oe", "Ü": "Ue", "ß": "ss", "ẞ": "SS",
           "æ": "ae", "Æ": "Ae", "œ": "oe", "Œ": "Oe", "ø": "oe", "Ø": "Oe", "ł": "l", "Ł": "L",
           "đ": "d", "Đ": "D", "ð": "d", "Ð": "D", "þ": "th", "Þ": "Th", "ı": "i", "…": "..."}
QUOTES = {**dict.fromkeys("‘’‚‛′‹›ʼ`´", "'"), **dict.fromkeys("“”„‟″«»", '"')}
DASHES = dict.fromkeys("‐‑‒–—―−⁃﹘﹣－→⇒➔➙➛➜➝➞⟶⟹↦", "-")
# Zero-width characters, soft hyphens, marks of direction and of an emoji's look.
UNSEEN = dict.fromkeys("\u00ad\u034f\u061c\u180e\u200b\u200c\u200d\u200e\u200f"
                       "\u2060\u2061\u2062\u2063"
                       "\u202a\u202b\u202c\u202d\u202e\u2066\u2067\u2068\u2069\ufeff", "")
LINE_ENDS = {"\u0085": "\n", "\u2028": "\n", "\u2029": "\n", "\t": " ", "\v": " ", "\f": " "}
TABLE = str.maketrans({**SPELLED, **QUOTES, **DASHES, **UNSEEN, **LINE_ENDS, "`": "`"})


def folded(text: str) -> str:
    """ASCII: umlauts spelled out, accents taken off, and ? for what has no such form."""
    text = text.replace("\r\n", "\n").replace("\r", "\n")
    if re.fullmatch(r"[\n -~]*", text):
        return text
    text = unicodedata.normalize("NFC", text).translate(TABLE)
    text = unicodedata.normalize("NFKD", text).translate(TABLE)
    kept = (c for c in text if not unicodedata.combining(c) and unicodedata.category(c) != "Mn")
    return re.sub(r"[^\n -~]", "?", re.sub(r"[\x00-\x09\x0b-\x1f\x7f]", "", "".join(kept)))


def one_line(text: str, most: int = 200) -> str:
    """A text that can stand in a header or in a log."""
    return " ".join(folded(text).split())[:most]


def paragraph(text: str, indent: str = "") -> str:
    """Prose in lines of at most 76 characters. A long word, as an address, stays whole."""
    return textwrap.fill(text, 76, initial_indent=indent, subsequent_indent=indent,
                         break_long_words=False, break_on_hyphens=False)
