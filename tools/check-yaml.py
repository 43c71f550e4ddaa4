#!/usr/bin/env python3
"""Compares what pn_yaml reads with what python's yaml library reads, scalars as texts.

Generated texts of the subset have to be read alike, and what is printed of them has to be read as the same data by that
library too. Of texts that are changed at random, those that both read have to be read alike, but for forms in which the
subset differs by design. Such a text is first reduced to what its difference wants, and the rules are asked of that alone.
Texts that one side alone reads are counted by the other side's fault.
Usage: tools/check-yaml.py [PATH OF yaml_check]
"""
import json
import os
import random
import re
import subprocess
import sys

TOP = os.path.dirname(os.path.dirname(os.path.abspath(__file__)))
TEXTS = 4000
CHANGED = 8000
# So many differing texts are reduced. A reader that has more is wrong.
MOST = 200

WORDS = ["a", "b c", "x.y/z", "1.0", "18.3.1(react@18.3.1)", "true", "null", "~", "^1.2.3", ">=18 <20", "link:../ui", "it's", 'say "hi"',
         "x#y", "a: b", "a #b", " lead", "tail ", "", "- a", "-", "é", "日本", "😀", "tab\there", "line\nfeed", "\x01", "\\", "[x]", "{x}", "a,b",
         "*", "&a", "!t", "%d", "@s/x", "`c`", "? q", "a:", ":a", "#c", "workspace:*", "catalog:", "|", "> x", "packages/*", "\u0085", "0x1f"]
KEYS = ["a", "b c", "packages", "@s/x", "x.y", "1", "on", "it's", "é", "a:b", "k#", "", "? k", "- k", "importers", "resolution", "tab\tkey"]

PLAIN_BLOCK = re.compile(r"""^(?![-?:,\[\]{}#&*!|>'"%@` ])[ -~]+$""")


def is_plain(text, in_flow, is_key):
    """Whether every reader takes this text, unquoted, for the same plain scalar."""
    if not PLAIN_BLOCK.match(text) or text != text.strip() or ": " in text or " #" in text or text.endswith(":"):
        return False
    if in_flow and re.search(r"[,\[\]{}?:]", text):
        return False
    return not (is_key and re.search(r":\s", text))


def escaped(text, rnd):
    out = []
    for char in text:
        code = ord(char)
        simple = {'"': '\\"', "\\": "\\\\", "\n": "\\n", "\t": "\\t", "\r": "\\r", "\0": "\\0", "/": "\\/"}
        if char in simple and (code < 32 or char in '"\\' or rnd.random() < 0.3):
            out.append(simple[char])
        elif code < 32 or code == 0x85 or (code < 256 and rnd.random() < 0.1):
            out.append("\\x%02x" % code if rnd.random() < 0.5 else "\\x%02X" % code)
        elif code < 65536 and rnd.random() < 0.1:
            out.append("\\u%04x" % code)
        else:
            out.append(char)
    return '"' + "".join(out) + '"'


def scalar(text, rnd, in_flow=False, is_key=False):
    styles = ["double"]
    if not re.search(r"[\x00-\x1f\x7f\x85]", text):
        styles.append("single")
    if is_plain(text, in_flow, is_key):
        styles += ["plain"] * 4
    style = rnd.choice(styles)
    if style == "plain":
        return text
    return "'" + text.replace("'", "''") + "'" if style == "single" else escaped(text, rnd)


def keys(rnd, most):
    return rnd.sample(KEYS, rnd.randint(1, most))


def blank(rnd):
    return " " * rnd.choice([0, 0, 0, 1, 2])


def flow(depth, rnd):
    """A flow value, and the data that it says."""
    kind = rnd.random()
    if depth == 0 or kind < 0.5:
        text = rnd.choice(WORDS)
        return scalar(text, rnd, in_flow=True), text
    if kind < 0.75:
        parts = [flow(depth - 1, rnd) for _ in range(rnd.randint(0, 3))]
        comma = "," if parts and rnd.random() < 0.2 else ""
        return "[" + blank(rnd) + ("," + " " + blank(rnd)).join(one for one, _ in parts) + blank(rnd) + comma + "]", [data for _, data in parts]
    chosen = keys(rnd, 3)
    parts = [(scalar(key, rnd, in_flow=True, is_key=True), flow(depth - 1, rnd)) for key in chosen]
    text = ", ".join(f"{key}: {blank(rnd)}{value}" for key, (value, _) in parts)
    return "{" + blank(rnd) + text + blank(rnd) + "}", {key: data for key, (_, (_, data)) in zip(chosen, parts)}


def lines_of_text(rnd):
    return [rnd.choice(["x", "y z", "# no comment", "a: b", "- c", "'q'", "é"]) for _ in range(rnd.randint(1, 3))]


class Kept(str):
    """A line of a block scalar: lines that say nothing elsewhere may belong to it behind it."""


def comment(rnd):
    return rnd.choice(["", "", "", "", " # note", "  #x: y"])


def between(lines, rnd):
    """Lines that say nothing, behind these lines."""
    if lines and isinstance(lines[-1], Kept):
        return []
    return rnd.choice([[]] * 8 + [[""], ["   "], ["# note"], ["      # deeper"]])


def value(indent, depth, rnd):
    """What stands behind `key:`, the lines below it, and the data that they say."""
    kind = rnd.random()
    if depth > 0 and kind < 0.3:
        below, data = block_map(indent + rnd.randint(1, 4), depth - 1, rnd)
        return comment(rnd), between([], rnd) + below, data
    if kind < 0.42:
        below, data = block_list(indent + rnd.choice([0, 0, 1, 2, 4]), rnd)
        return comment(rnd), between([], rnd) + below, data
    if kind < 0.5:
        lines = lines_of_text(rnd)
        style, mark = rnd.choice("|>"), rnd.choice(["", "-", "+"])
        width = " " * (indent + rnd.randint(1, 4))
        text = ("\n" if style == "|" else " ").join(lines) + ("" if mark == "-" else "\n")
        return " " + style + mark + comment(rnd), [Kept(width + line) for line in lines], text
    if kind < 0.6:
        text, data = flow(rnd.randint(1, 3), rnd)
        return " " + blank(rnd) + text + comment(rnd), [], data
    if kind < 0.65:
        return comment(rnd), [], ""
    text = rnd.choice(WORDS)
    return " " + blank(rnd) + scalar(text, rnd) + comment(rnd), [], text


def block_list(indent, rnd):
    lines, data = [], []
    for _ in range(rnd.randint(1, 4)):
        lines += between(lines, rnd)
        if rnd.random() < 0.3:
            text, item = flow(2, rnd)
        else:
            item = rnd.choice(WORDS)
            text = scalar(item, rnd)
        lines.append(" " * indent + "- " + blank(rnd) + text + comment(rnd))
        data.append(item)
    return lines, data


def block_map(indent, depth, rnd):
    lines, data = [], {}
    for key in keys(rnd, 4):
        behind, below, said = value(indent, depth, rnd)
        lines += between(lines, rnd)
        lines.append(" " * indent + scalar(key, rnd, is_key=True) + ":" + behind)
        lines += below
        data[key] = said
    return lines, data


def text_of_subset(rnd):
    lines, data = block_map(0, 3, rnd)
    if rnd.random() < 0.2:
        lines = rnd.choice([["---"], ["# first", "--- # start"], ["", "---"]]) + lines
    end = rnd.choice(["\n", "\n", "\r\n"])
    mark = "\ufeff" if rnd.random() < 0.1 else ""
    is_ended = isinstance(lines[-1], Kept) or rnd.random() < 0.9
    return mark + end.join(lines) + (end if is_ended else ""), data


def changed(text, rnd):
    at = rnd.randrange(len(text) + 1)
    piece = rnd.choice(["", " ", "\n", ":", ": ", "-", "- ", "#", " #", "'", '"', "[", "]", "{", "}", ",", "  ", "\t", "|", "&", "*", "\\", "x", "?"])
    return text[:at] + piece + text[at + rnd.choice([0, 0, 1, 2]):]


# YAML 1.2 ends lines at line feeds and carriage returns, and python's library at these too.
OTHER_ENDS = re.compile("[\x85\u2028\u2029]")
OTHER_ENDS_RULE = "other line ends than line feeds are text here"
LONE_RETURN = re.compile(r"\r(?!\n)")
LONE_RETURN_RULE = "some fault, behind a carriage return that is text here"

# Forms of whole reduced texts that both read, in ways that differ by design.
ABOVE = r"(?:[^\n]*:\n)?"
HEADER = r"(?:[^\n]*: +|- +)[|>]"
RULES = [
    (OTHER_ENDS_RULE, "(?s:.*[\r\x85\u2028\u2029].*)"),
    ("a tab is text here", r"(?s:.*\t.*)"),
    ("a list item opens no map here", ABOVE + r" *- +[^\n\[{'\"][^\n]*:(?: [^\n]*)?\n?"),
    ("a `- ` behind `- ` is text here", ABOVE + r" *- +-(?: [^\n]*)?\n?"),
    ("a line below a key that begins with `[` or `{` is a key here", ABOVE + r" *[\[{][^\n]*:(?: [^\n]*)?\n?"),
    ("a `?` in a flow begins a text where no space is behind it here", ABOVE + r"[^\n]*[\[{,] *\?[^ \n][^\n]*\n?"),
    ("a `:` in a flow without a space behind it is text here", ABOVE + r"[^\n]*[\[{][^\n]*:[,\]}][^\n]*\n?"),
    ("the indentation of a block scalar isn't written in its header here", HEADER + r"[-+]?\d[-+]?(?:\n[^\n]*)*"),
    ("an empty block scalar is a line feed here", HEADER + r"[-+]?\n*"),
    ("lines of spaces in a block scalar are passed over here", HEADER + r"[-+]?\n(?: +[^\n]+\n)?(?: *\n)+(?: +[^\n]+\n?)?"),
    ("a folded line that begins with a blank is joined by a space here", HEADER + r"[-+]?(?:\n +[^\n]+)?\n {2,}[^ \n]+(?:\n +[^\n]+)?\n?"),
    ("a block scalar ends with a line feed here, also where the text has none", HEADER + r"[-+]?\n +[^ \n]+"),
]

# The faults by which one side refuses what the other one reads. Any other one is a difference.
OUR_FAULTS = ["tab", "indentation", "key", "quote", "escape", "flow", "key twice", "left out"]
THEIR_FAULTS = [
    "mapping values are not allowed here", "sequence entries are not allowed here", "expected the node content", "expected <block end>",
    "expected ',' or '}'", "expected ',' or ']'", "could not find expected ':'", "expected chomping or indentation indicators",
    "expected a comment or a line break", "expected alphabetic or numeric character", "found unexpected end of stream",
    *(f"found character '{char}' that cannot start any token" for char in ["\\t", "|", ">"]),
]


def ask(program, texts):
    lines = "".join(text.encode("utf-8", "surrogatepass").hex() + "\n" for text in texts)
    ended = subprocess.run([program], input=lines.encode(), stdout=subprocess.PIPE, check=True)
    answers = ended.stdout.decode().split("\n")[:-1]
    if len(answers) != len(texts):
        raise RuntimeError(f"{len(texts)} texts, {len(answers)} answers")
    return answers


def paired(data):
    """The data with each map as the tuple of its pairs, so that the order of keys counts."""
    if isinstance(data, dict):
        return tuple((key, paired(one)) for key, one in data.items())
    return [paired(one) for one in data] if isinstance(data, list) else data


def unhexed(data):
    if isinstance(data, str):
        return bytes.fromhex(data).decode()
    if isinstance(data, list):
        return [unhexed(one) for one in data]
    return tuple((bytes.fromhex(key).decode(), unhexed(one)) for key, one in data)


def is_read(answer):
    return answer.startswith(("{", "[", '"'))


def said(answer):
    """The data that was read, with maps as tuples of pairs, and the text that was printed of it."""
    data, printed = answer.split("\t")
    return unhexed(json.loads(data, object_pairs_hook=tuple)), None if printed == "-" else bytes.fromhex(printed).decode()


def fault_of(e):
    """The library's fault, without what it found."""
    return (getattr(e, "problem", None) or getattr(e, "reason", None) or repr(e)).split(", but ")[0]


def theirs(yaml, text):
    """Whether the library reads the text, and the data or the fault."""
    try:
        return True, paired(yaml.load(text.encode(), Loader=yaml.BaseLoader))
    except Exception as e:
        return False, fault_of(e)


def compare_subset(yaml, program, rnd):
    texts = [text_of_subset(rnd) for _ in range(TEXTS)]
    problems, unlike = [], 0
    for (text, data), answer in zip(texts, ask(program, [text for text, _ in texts])):
        if not is_read(answer):
            problems.append(f"{text!r}: {answer}")
            continue
        wanted = True, paired(data)
        ours, printed = said(answer)
        if (True, ours) != wanted or theirs(yaml, text) != wanted:
            problems.append(f"{text!r}: {ours!r} here, {theirs(yaml, text)[1]!r} there, not {data!r}")
        elif OTHER_ENDS.search(printed):
            unlike += 1
        elif theirs(yaml, printed) != wanted:
            problems.append(f"what is printed of {text!r}: {printed!r}")
    print(f"  by design: {OTHER_ENDS_RULE}, so what is printed isn't compared: {unlike}")
    return len(texts) - unlike, f"{len(texts)} texts, {sum(len(text) for text, _ in texts)} characters", problems


def kinds(ours, data):
    """What kinds of data stand at the first place where they differ, and how two scalars differ."""
    if isinstance(ours, str) and isinstance(data, str):
        return ours.strip() == data.strip(), ours.strip() == "", data.strip() == ""
    if type(ours) is type(data):
        for one, other in zip(ours, data):
            if one != other:
                return kinds(one, other)
    return type(ours), type(data)


def difference(yaml, text, answer):
    """The kinds at which the readings of a text differ; None where they don't, or one side refuses it."""
    is_theirs, data = theirs(yaml, text)
    if not is_theirs or not is_read(answer):
        return None
    ours, _ = said(answer)
    return None if ours == data or (ours == () and data in (None, "")) else kinds(ours, data)


def without(parts, size):
    """The parts without each run of so many."""
    return [parts[:at] + parts[at + size:] for at in range(0, len(parts), max(1, size // 2))]


def reduced(yaml, program, texts, parts_of):
    """Each text without the parts that its difference doesn't want: none of them alone can be dropped."""
    wanted = [difference(yaml, text, answer) for text, answer in zip(texts, ask(program, texts))]
    kept = [parts_of(text) for text in texts]
    sizes = [len(parts) for parts in kept]
    while any(sizes):
        tried = [(i, parts) for i, size in enumerate(sizes) if size > 0 for parts in without(kept[i], size)]
        smaller = {}
        for (i, parts), answer in zip(tried, ask(program, ["".join(parts) for _, parts in tried])):
            if i not in smaller and difference(yaml, "".join(parts), answer) == wanted[i]:
                smaller[i] = parts
        sizes = [len(smaller[i]) if i in smaller else size // 2 for i, size in enumerate(sizes)]
        kept = [smaller.get(i, parts) for i, parts in enumerate(kept)]
    return ["".join(parts) for parts in kept]


def lines_of(text):
    return re.findall(r"[^\n]*\n|[^\n]+", text)


def excuse(yaml, program, texts):
    """The differing texts that no rule excuses, and how many each rule does."""
    small = reduced(yaml, program, reduced(yaml, program, texts, lines_of), list)
    problems, counts = [], {name: 0 for name, _ in RULES}
    for text, answer in zip(small, ask(program, small)):
        rule = next((name for name, form in RULES if re.fullmatch(form, text)), None)
        if rule is None:
            problems.append(f"{text!r}: {said(answer)[0]!r} here, {theirs(yaml, text)[1]!r} there")
        else:
            counts[rule] += 1
    return problems, counts


def compare_changed(yaml, program, rnd):
    texts = [changed(text_of_subset(rnd)[0], rnd) for _ in range(CHANGED)]
    problems, differing, alike, neither = [], [], 0, 0
    here, there = {fault: 0 for fault in [LONE_RETURN_RULE, *THEIR_FAULTS]}, {fault: 0 for fault in OUR_FAULTS}
    for text, answer in zip(texts, ask(program, texts)):
        is_theirs, data = theirs(yaml, text)
        ours = re.fullmatch(r"refused \d+ (.*)", answer)
        if not is_read(answer) and (ours is None or ours[1] not in there):
            problems.append(f"{text!r}: {answer}")
        elif is_read(answer) and is_theirs:
            is_alike = difference(yaml, text, answer) is None
            alike += is_alike
            differing += [] if is_alike else [text]
        elif is_theirs:
            there[ours[1]] += 1
        elif not is_read(answer):
            neither += 1
        elif LONE_RETURN.search(text):
            here[LONE_RETURN_RULE] += 1
        elif data in here:
            here[data] += 1
        else:
            problems.append(f"{text!r}: read here, {data!r} there")
    unlike, rules = excuse(yaml, program, differing[:MOST])
    problems += [f"{text!r}: read unlike, past the first {MOST} texts" for text in differing[MOST:]]
    for what, counts in (("by design", rules), ("read here alone, there", here), ("read there alone, here", there)):
        for name, count in counts.items():
            print(f"  {what}: {name}: {count}")
    what = f"{len(texts)} texts: {alike} read alike, {len(differing)} read unlike by design, {neither} read by neither"
    return min(alike, neither), what, problems + unlike


def built():
    """The path of the program: the shipped one, or one that is built first, which standard error tells of."""
    ended = subprocess.run([os.path.join(TOP, "tools", "built.sh"), "yaml_check"], stdout=subprocess.PIPE)
    if ended.returncode != 0:
        raise RuntimeError("yaml_check can't be built")
    return ended.stdout.decode()[:-1]


def part(title, compare, *given):
    """Runs a part of the check, and tells in a line how it ended, which tools/test.sh counts. Answers whether it passed."""
    try:
        compared, what, problems = compare(*given)
    except (RuntimeError, OSError, subprocess.SubprocessError) as e:
        compared, what, problems = 0, "", [str(e)]
    for line in problems[:30]:
        print(f"  differs: {line}")
    if problems:
        print(f"failed: {title}: {len(problems)} differences")
    elif compared == 0:
        print(f"failed: {title}: nothing was compared")
    else:
        print(f"passed: {title}: {what}")
    return compared > 0 and not problems


def main():
    try:
        import yaml
    except ImportError:
        print("skipped: YAML: python has no yaml library")
        return 0
    try:
        program = os.path.abspath(sys.argv[1]) if len(sys.argv) > 1 else built()
    except RuntimeError as e:
        print(f"failed: YAML: {e}")
        return 1
    rnd = random.Random(20240229)
    is_well = part("YAML texts of the subset", compare_subset, yaml, program, rnd)
    is_well = part("YAML texts that are changed at random", compare_changed, yaml, program, rnd) and is_well
    return 0 if is_well else 1


if __name__ == "__main__":
    sys.exit(main())
