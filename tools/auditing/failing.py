"""Whether the words of a refusal say that a fact fails, and not that the text is ill formed."""
import re

from .library import LIBRARIES, SYMBOLS
from .sources import QUOTED

# What the prover says when a fact fails. A type mismatch is judged by its two types, further down.
FACTS = [
    r"`omega`: [\s\S]*?does not\s+follow from what it read",
    r"`omega` found no proof",
    r"`grind`: the goal does not follow",
    r"`grind` found no proof",
    r"`search`: no proof of `",
    r"`cc`: the equations do not join `",
    r"`simp` has no last argument, so what it leaves must be a path whose two ends are equal",
    r"`rw` has no last argument, so what it leaves must be a path whose two ends are equal, and `Path ",
    r"on the face `[^`]*` this λ's body is `[^`]*`, but the extension \(path\) type requires `",
    # the types agree up to a relation's sign, and differ only on its right side, or behind its name on its left
    r"the two types differ only where [^`]*`[^`]*`\s+\(expected\), right after `[^`]*[≡≢<≤]◌?`",
]

# The heads of a type that states a relation, of a contract's clause, and of a test that computes.
RELATIONS = {"Path", "PathP", "◌≡◌", "◌≢◌", "◌<◌", "◌≤◌", "◌∣◌", "Fits", "InArray", "PartFrom", "PartTo"}
INFIX = {"≡", "≢", "<", "≤", "∣"}
CLAUSE = re.compile(r"(?:^|\.)[Rr]eads\.(?:Pre|Post|Asked|Learnt)$|\.View\.Asks-returns[\w+-]*$")
TESTS = {"T", "IsLe", "IsTrue", "IsFalse", "So", "⊥", "⊤", "Unit"}
# A statement by its name alone: a loop's invariant, or a clause of a function that a proof of several has as one of its claims.
NAMED = re.compile(r"(?:\S*-)?Inv-\S+ |(?:\S*\.)?(?:the-)?invariant-\S+ |\(\S+-claims [^()]*\) ?\.[01] ")
# The same, opened here and by its name there: a predicate of a crate, and no type that its code declares.
PREDICATE = re.compile(r"Rattle\.\w+\.specs\.(?!declared\.)(?:\w+\.)*[A-Z]\w* ")
SUCCESSOR = re.compile(r"(?:Prim\.Native\.Nat\.)?suc (?:\((.*)\)|(\S+))|\((?:Prim\.Native\.Nat\.)?◌\+◌ (\S+) 1\)")
# Where antt tells the one place in which two types differ, as they are printed or once they are computed.
DIFFER = re.compile(
    r"(as printed|computed as far as they go), the two types (differ only|first differ) where one has `([^`]*)`\s+\(expected\)"
    r"(?:, (?:at the start|right after `[^`]*`),?)?\s+and the other has `([^`]*)`\s+\(found\)"
)


def says(words, patterns):
    return any(re.search(pattern, words) for pattern in patterns)


def is_fact(words):
    """The words say that a fact fails, and not that the text is ill formed."""
    words = QUOTED.sub('""', words)
    if says(words, FACTS):
        return True
    stated = re.search(r"expected type `([^`]*)`.*?but this has type `([^`]*)`", words, re.S)
    computed = re.search(r"the two types are `([^`]*)`\s+\(expected\) and `([^`]*)`\s+\(found\)", words)
    late = re.search(r"`([^`]*)` ≟ `([^`]*)`: does not hold \(this comparison", words)
    sides = re.search(r"the two sides are `([^`]*)`\s+\(left\) and `([^`]*)`\s+\(right\)", words)
    if stated and (another_instance(stated[1], stated[2], words) or another_value(stated[1], stated[2], words)):
        return True
    pairs = [pair for pair in (stated, computed, late, sides) if pair]
    return any(same_kind(pair[1], pair[2]) or is_denied(pair[1], pair[2]) for pair in pairs)


def another_instance(one, two, words):
    """Two types that state one thing of two values: a clause, a predicate of a crate, or an entailment."""
    found = {how: parts for how, _, *parts in DIFFER.findall(words)}
    # what is computed says more than what is printed
    differing = found.get("computed as far as they go") or found.get("as printed")
    heads = [(text.split() or [""])[0].lstrip("(") for text in (one, two)]
    if not differing:
        return False
    if any(CLAUSE.search(head) for head in heads):
        return all(map(is_value, differing))
    if heads[0] != heads[1] or heads[0] in SYMBOLS:
        return False
    if heads[0] == "ent":
        # a formula is in lower case too, so only what is plainly a value tells
        return all(re.fullmatch(r"\d+|true|false", part) for part in differing)
    return heads[0].split(".")[0] not in LIBRARIES and all(map(is_value, differing))


def another_value(expected, found, words):
    """A statement by its name alone, on one side, that once computed differs from the other in nothing but two unequal values.

    Two places of the proof's context, as `c .args .i` and `c .args .j`, do not tell: they also differ where a proof
    cites the wrong one."""
    differing = [values for how, where, *values in DIFFER.findall(words) if (how, where) == ("computed as far as they go", "differ only")]
    return bool(NAMED.match(expected) or PREDICATE.match(found)) and any(unequal(*values) for values in differing)


def unequal(one, two):
    """Two values that are plainly not equal: literals, or a number and the next one."""
    one, two = (re.sub(r"^mathlib\.Core\.Bool\.(?=(?:true|false)$)", "", part) for part in (one, two))
    if any(all(re.fullmatch(literal, part) for part in (one, two)) for literal in (r"\d+", "true|false")):
        return one != two
    nexts = [(SUCCESSOR.fullmatch(a), b) for a, b in ((one, two), (two, one))]
    return any(found and number in found.groups() for found, number in nexts)


def is_value(text):
    """By how it is written: a type begins with a capital letter, as ℕ does, and a value does not."""
    name = text.strip().lstrip("(").split(" ")[0].split(".")[-1]
    return bool(name) and not name[0].isupper()


def same_kind(one, two):
    """Two types that state facts of one kind: relations over one type, or tests."""
    ones, twos = parts(one), parts(two)
    if len(ones) != len(twos):
        return False
    for a, b in zip(ones, twos):
        kinds = {kind_of(a), kind_of(b)} - {"clause"}
        if "" in kinds or len(kinds) > 1 or not same_type(a, b):
            return False
    return True


def is_denied(one, two):
    """A relation and the denial of just that relation."""
    bare, denied = sorted((one, two), key=len)
    return kind_of(bare) == "relation" and "…[" not in bare and re.fullmatch(re.escape(bare) + r" → (?:Prim\.)?⊥", denied) is not None


def same_type(one, two):
    """Where both equations show the type that they are over, it is the same."""
    over = [re.match(r"Path (\([^()]*\)|[^\s()]+) ", part) for part in (one, two)]
    return not all(over) or over[0][1] == over[1][1] or "?" in over[0][1] + over[1][1]


def top_words(text):
    """The words of a printed type that stand in no bracket; of one whose middle is cut, those of both ends."""
    words, ends = [], text.split("…[", 1)
    for step, end in zip((1, -1), ends):
        depth, tokens = 0, re.findall(r"[(){}]|[^\s(){}]+", end)
        for token in tokens[::step]:
            if token in "({" or token in ")}":
                depth += step if token in "({" else -step
            elif depth == 0:
                words.append(token)
    return words


def parts(text):
    """The parts of a product, or the type alone."""
    text = text.strip()
    if "…[" in text or "×" not in top_words(text):
        return [text]
    found, depth = [""], 0
    for token in re.findall(r"[(){}]|\s+|[^\s(){}]+", text):
        depth += {"(": 1, "{": 1, ")": -1, "}": -1}.get(token, 0)
        if token == "×" and depth == 0:
            found.append("")
        else:
            found[-1] += token
    return [part.strip() for part in found]


def kind_of(text):
    """Whether a printed type is a relation, a contract's clause or a test; "" where it is none of them."""
    words = top_words(text)
    if not words or "→" in words or words[0] == "λ":
        return ""
    head = words[0].split(".")[-1] if text.strip()[0] not in "({" else ""
    if CLAUSE.search(words[0]) and head:
        return "clause"
    if head in TESTS:
        return "test"
    return "relation" if head in RELATIONS or INFIX & set(words) or words[0] == "¬" else ""
