"""Files of Rattle and antt with their comments and quoted text blanked."""
import re

def blanked(part):
    return re.sub(r"[^\n]", " ", part)


def line_end(raw, i):
    end = raw.find("\n", i)
    return len(raw) if end < 0 else end


def block_end(raw, i, opens, closes):
    """The end of a block comment, which may hold others."""
    depth = 0
    for m in re.compile(re.escape(opens) + "|" + re.escape(closes)).finditer(raw, i):
        depth += 1 if m[0] == opens else -1
        if depth == 0:
            return m.end()
    return len(raw)


QUOTED = re.compile(r'"(?:\\.|[^"\\])*"', re.S)
# a byte or a character; a lifetime has no quote behind it
BYTE = re.compile(r"b?'(?:\\'|\\[^']+|[^\\'\n])'")
RAW = re.compile(r'b?r(#*)".*?"\1', re.S)
ANTT_BREAK = set(' \t\n(){}.;,@"«»')


def antt_skip(raw, i):
    """The end of the comment or quoted text that starts at i; i where none does."""
    if raw.startswith("{-", i):
        return block_end(raw, i, "{-", "-}")
    if raw.startswith("--", i) and (i == 0 or raw[i - 1] in ANTT_BREAK):
        return line_end(raw, i)
    m = QUOTED.match(raw, i)
    return m.end() if m else i


ANTT_MARK = re.compile(r'\{-|--|"|[{}]')


def blank_antt(raw, start=0, clause=False):
    """antt with its comments and quoted text blanked: all of it, or the clause whose braces begin at start."""
    out, at, depth, m = [], start, 0, ANTT_MARK.search(raw, start)
    while m:
        i = m.start()
        end = antt_skip(raw, i)
        out += [raw[at:i], blanked(raw[i:end])]
        at = end
        if end == i:
            at = i + 1
            out.append(raw[i])
            depth += {"{": 1, "}": -1}.get(raw[i], 0)
            if clause and depth == 0:
                return "".join(out)
        m = ANTT_MARK.search(raw, at)
    return "".join(out) + raw[at:]


def rattle_skip(raw, i):
    """The end of the comment or quoted bytes that start at i; i where none do."""
    if raw.startswith("//", i):
        return line_end(raw, i)
    if raw.startswith("/*", i):
        return block_end(raw, i, "/*", "*/")
    m = BYTE.match(raw, i) or RAW.match(raw, i) or QUOTED.match(raw, i + 1 if raw.startswith('b"', i) else i)
    return m.end() if m else i


RATTLE_MARK = re.compile(r"""//|/\*|\bb?r\#*"|\bb"|\bb'|"|'|[{;()=]|\b(?:requires|ensures|ghost|use)\b""")


def blank_rattle(raw):
    """Rattle with its comments blanked, and its clauses as {start: (word, end)}."""
    out, clauses, word, at, m = [], {}, None, 0, RATTLE_MARK.search(raw)
    while m:
        i, end = m.start(), rattle_skip(raw, m.start())
        if end > i:
            # `extern "C"` is told by its text
            part = raw[i:end] if raw[i:end] == '"C"' else blanked(raw[i:end])
        elif m[0] == "{" and word:
            part = blank_antt(raw, i, clause=True)
            end = i + len(part)
            clauses[i] = (word, end)
            word = None
        else:
            part, end = m[0], m.end()
            if part in ("requires", "ensures", "ghost"):
                word = part
            elif part != "{" and (part != "=" or word != "ghost"):
                # a ghost item of an `impl` has its `=` before its brace
                word = None
        out += [raw[at:i], part]
        at, m = end, RATTLE_MARK.search(raw, end)
    return "".join(out) + raw[at:], clauses


class Source:
    """A file of Rattle or antt, its comments and quoted text blanked so that offsets keep their lines."""

    def __init__(self, root, path):
        self.name = path.relative_to(root).as_posix()
        raw = path.read_text(encoding="utf-8", errors="replace")
        self.is_rattle = path.suffix == ".rt"
        self.text, self.clauses = blank_rattle(raw) if self.is_rattle else (blank_antt(raw), {})

    def place(self, offset):
        return f"{self.name}:{self.text.count(chr(10), 0, offset) + 1}"


def sources(root, *patterns):
    paths = {path for pattern in patterns for path in root.glob(pattern) if path.is_file()}
    return [Source(root, path) for path in sorted(paths)]
