"""The page that `report` has to write of an audit, put together from what the program's other commands tell: `order --long` the
statements, `shown` their rows, `explain --long` the decisions, `graph` the rw-antidependencies."""
import functools
import json
import os
import re
import subprocess

TOP = os.path.dirname(os.path.dirname(os.path.abspath(__file__)))
SECONDS = 120
LOOK = f"{TOP}/crates/rls_check/src/page_look.rt"
CONSTANT = re.compile(r'const (\w+): &str =\s+"((?:[^"\\]|\\.)*)";', re.S)
VALUE = re.compile(r"(true|false|null|-?\d+|'(?:[^']|'')*'): (.*)$", re.S)
HIDDEN = re.compile(r"(\d+) (rows?) of (\w+) (?:is|are) hidden$")
MORE = re.compile(r"sees (\d+) more (rows?) of (\w+)$")
SHOWN, WRITTEN, DENIED = ("listed", "counted", "returned"), ("inserted", "changed", "deleted"), ("hidden", "barred", "refused")
CHIPS = [(word, ' class="g"') for word in ("listed", "counted", "changed", "deleted", "inserted", "returned")] + [
    (word, ' class="r"') for word in ("hidden", "barred", "refused")] + [(word, "") for word in ("matched", "proposed", "skipped", "seen")]
NEW = ("inserted", "refused", "proposed")
FEW = 30
MARKUP = {"&": "&amp;", "<": "&lt;", ">": "&gt;", '"': "&quot;", "'": "&#39;"}
ESCAPED = {"\\": "\\\\", "\n": "\\n", "\r": "\\r", "\t": "\\t"}


def look():
    """The policy, the style and the script, from the source."""
    with open(LOOK, encoding="utf-8") as file:
        found = {name: re.sub(r"\\(.)", r"\1", text) for name, text in CONSTANT.findall(file.read())}
    return found["POLICY"], found["STYLE"], found["SCRIPT"]


def html(text):
    """A text that is escaped already, in HTML."""
    return "".join(MARKUP.get(it, it) for it in text)


def data(text):
    """A text as the page has it."""
    return html("".join(ESCAPED.get(it) or (f"\\x{ord(it):02X}" if ord(it) < 32 or ord(it) == 127 else it) for it in text))


def literal(value):
    """A value as SQL writes it."""
    if value is None:
        return "NULL"
    if isinstance(value, bool):
        return "TRUE" if value else "FALSE"
    return str(value) if isinstance(value, int) else "'" + value.replace("'", "''") + "'"


def ran(program, *words):
    """What the program writes, whatever its status is."""
    return subprocess.run([program, *words], capture_output=True, timeout=SECONDS).stdout.decode("utf-8")


# ---- what the other commands tell


@functools.cache
def statements_of(program, path):
    """The role, the text and the answer of each statement, by transaction and number."""
    found, txn = {}, None
    for line in ran(program, "order", path, "--long").split("\n"):
        if line and not line.startswith(" "):
            txn = int(line)
        elif head := re.match(r"  (\d+) (\w+): (.*)$", line):
            key = txn, int(head[1])
            found[key] = [head[2], head[3], ""]
        elif line.startswith("    "):
            found[key][2] = line[4:]
    return found


def rows_of(program, path, options):
    """The rows of each statement on rows, with the texts of their lines, and the columns of its table."""
    found = {}
    objects = [json.loads(line) for line in ran(program, "shown", path, "--json", *options).splitlines()]
    lines, key = {}, None
    for line in ran(program, "shown", path, "--all", *options).split("\n"):
        if head := re.match(r"txn (\d+) statement (\d+) role", line):
            key = int(head[1]), int(head[2])
            lines[key] = []
        elif line.startswith("  "):
            lines[key].append(line)
    for it in objects:
        key = it["txn"], it["statement"]
        found[key] = [(*row, line) for row, line in zip(it["rows"], lines[key], strict=True)]
    return found


def columns_of(row):
    """The names of the columns, from the line of a row and its values."""
    word, table, number, values, old, _, line = row
    rest = line.split("(", 1)[1]
    names = []
    for value in old if old is not None else values:
        name, rest = rest.split(" ", 1)
        names.append(name)
        text = "".join(ESCAPED.get(it) or (f"\\x{ord(it):02X}" if ord(it) < 32 or ord(it) == 127 else it) for it in literal(value))
        rest = rest[len(text):].removeprefix(", ")
    return names


@functools.cache
def decisions_of(program, path, txn, number):
    """The decisions of a statement, each the line of it and the lines below it."""
    found = []
    for line in ran(program, "explain", path, str(txn), str(number), "--long").split("\n")[3:]:
        if line.startswith("row "):
            found.append((line, []))
        elif line and found:
            found[-1][1].append(line)
    return found


@functools.cache
def conflicts_of(program, path):
    """The rw-antidependencies: reader, writer, object."""
    return [(int(it[1]), int(it[2]), it[3]) for it in re.findall(r"^(rw) (\d+) (\d+) (.*)$", ran(program, "graph", path), re.M)]


# ---- a decision


def parted(text):
    """An expression, and the same with its values or None."""
    quoted = False
    for place, letter in enumerate(text):
        quoted ^= letter == "'"
        if not quoted and text.startswith("   -- ", place):
            return text[:place], text[place + 6:]
    return text, None


def sees(lines):
    """The list of the rows that a subquery sees."""
    out = "<ul>"
    for line in lines:
        if line.startswith("sees no row of "):
            out += f'<li class="dim">sees no row of {html(line[15:])}</li>'
        elif more := MORE.match(line):
            out += f'<li class="dim">sees {more[1]} more {more[2]} of {more[3]}</li>'
        elif hidden := HIDDEN.match(line):
            out += f'<li class="dim">hidden: {hidden[1]} {hidden[2]} of {hidden[3]}</li>'
        else:
            out += f'<li><span class="v vals">{html("  " + line)}</span></li>'
    return out + "</ul>"


def parts(lines):
    """The parts of a condition, each a level, its own line and those of its subquery."""
    found = []
    for line in lines:
        text = line.lstrip(" ")
        if value := VALUE.match(text):
            found.append(((len(line) - len(text)) // 2 - 1, value[1], value[2], []))
        else:
            found[-1][3].append(text)
    out, last = '<ul class="p"><li>', 0
    for place, (level, value, text, seen) in enumerate(found):
        if place == 0 or level > last:
            out += "<ul><li>" * (level - last)
        else:
            out += "</li></ul>" * (last - level) + "</li>\n<li>"
        expression, values = parted(text)
        kind = f' class="{value}"' if value in ("true", "false", "null") else ""
        out += f'<b{kind}>{html(value)}</b> <span class="v">{html(expression)}</span>'
        out += f' <span class="v vals">{html(values)}</span>' if values is not None else ""
        out += sees(seen) if seen else ""
        last = level
    return out + "</li></ul>" * last + "</li></ul>\n" if found else ""


def policies(lines):
    """What is told of the policies, from the lines behind the row."""
    out, place = "", 0
    while place < len(lines):
        line = lines[place]
        place += 1
        if line.startswith("  no policy is asked: "):
            out += f'<p class="dim">no policy is asked: {html(line[22:])}</p>\n'
        elif table := re.match(r"  (\w+) has no policy$", line):
            out += f'<p class="dim">{table[1]} has no policy</p>\n'
        elif line.startswith("policy "):
            below = []
            while place < len(lines) and not lines[place].startswith(("policy ", "  policy ")):
                below.append(lines[place])
                place += 1
            out += f'<p>{html(line)} <span class="dim">{html(below[0])}</span></p>\n' + parts(below[1:])
        else:
            out += f'<p class="dim">{html(line)}</p>\n'
    return out


def decision(line, below):
    color = "r" if ": denied, " in line else "g"
    return f'<div class="d {color}"><p><strong>{html(line)}</strong></p>\n{policies(below[1:])}</div>\n'


def why(row, decided):
    """The decisions on a row, folded up."""
    word, _, number, _, _, reason, _ = row
    sides = {"changed": ("old", "new"), "returned": (), "seen": ()}.get(word, ("new",) if word in NEW else ("old",))
    own = [(line, below) for line, below in decided if line.split()[1] == number and line.split()[2] in sides]
    if not own:
        return ""
    return f'<details class="w"><summary>{data(reason) if reason else "why"}</summary>\n' + "".join(decision(*it) for it in own) + "</details>"


# ---- rows


def more(count):
    return f'<p class="dim">and {count} more row{"s" * (count != 1)}</p>\n' if count > 0 else ""


def row_text(row, columns, decided):
    word, _, number, values, old, _, _ = row
    color = " r" if word in DENIED else " g" if word in SHOWN + WRITTEN else ""
    out = f'<tr><td class="what{color}">{word}</td><td class="v">{number}</td>'
    for place, column in enumerate(columns):
        now = literal(values[place])
        before = literal(old[place]) if old is not None else now
        cell = data(now) if now == before else f'<del>{data(before)}</del><span class="arrow"> &rarr; </span><ins>{data(now)}</ins>'
        out += f'<td class="v" data-l="{column}">{cell}</td>'
    return out + f'<td class="y">{why(row, decided)}</td></tr>\n'


def rows_text(rows, table, decided, most):
    own, seen, out = [it for it in rows if it[0] != "seen"], [it for it in rows if it[0] == "seen"], ""
    if own:
        columns = columns_of(own[0])
        heads = "".join(f'<th scope="col">{it}</th>' for it in columns)
        out += (f'<div class="rows" tabindex="0" role="region" aria-label="Rows of {table}"><table><caption>{table}</caption><thead><tr><th scope="col">Outcome</th>'
                f'<th scope="col">Row</th>{heads}<th scope="col">Why</th></tr></thead><tbody>\n')
        out += "".join(row_text(it, columns, decided) for it in own[:most]) + "</tbody></table></div>\n" + more(len(own) - most)
    if seen:
        out += '<p class="dim">Rows that subqueries could see:</p><ul class="p">\n'
        out += "".join(f'<li class="v">{html(it[6])}</li>\n' for it in seen[:most]) + "</ul>\n" + more(len(seen) - most)
    return out


def tables_text(target, rows):
    out, last = target or "", target
    for it in rows if target else ():
        if it[1] != last:
            out, last = f"{out} {it[1]}", it[1]
    return out


def target_of(text):
    """The table of a statement on rows."""
    found = re.match(r"(?:SELECT .*? FROM|INSERT INTO|UPDATE|DELETE FROM) (\w+)", text)
    return found[1] if found else None


def statement_text(role, text, came, rows, decided, most):
    target = target_of(text)
    reply = f'<span class="reply{" err" * came.startswith("ERROR ")}">{html(came)}</span>'
    denied = any(it[0] in DENIED for it in rows)
    named = f'{role}" data-tables="{tables_text(target, rows)}" data-denied="{int(denied)}">'
    if not rows:
        return f'<div class="s plain" data-role="{named}<div class="h"><span class="sql">{html(text)}</span><span class="chips"></span>{reply}</div></div>\n'
    counts = [(word, color, sum(it[0] == word for it in rows)) for word, color in CHIPS]
    chips = "".join(f"<span{color}>{n} {word}</span>" for word, color, n in counts if n)
    return (f'<details class="s" data-role="{named}<summary class="h"><span class="sql">{html(text)}</span><span class="chips">{chips}</span>{reply}</summary><div class="in">\n'
            f"{rows_text(rows, target, decided, most)}</div></details>\n")


# ---- the timeline


def plot(order, facts, tallies, conflicts):
    """Of the transactions in the report: a bar each, or where they are many those that ran beside others, or were denied a row."""
    edges = {it for reader, writer, _ in conflicts for it in (reader, writer)}
    few = len(tallies) <= FEW
    drawn = {txn for txn, tally in tallies.items() if few or txn in edges or tally[3] or facts[txn]["snap"] < facts[txn]["commit"] - 1}
    column = lambda commits: sum(facts[txn]["commit"] <= commits for txn in drawn)
    lines = [txn for txn in order if txn in drawn]
    out = ""
    if len(tallies) > len(drawn):
        out += (f'<p class="dim">Drawn are the transactions during which another one committed, and those with denied rows or a conflict; {len(tallies) - len(drawn)} more are '
                "below.</p>\n")
    out += (f'<div class="scroll" tabindex="0" role="region" aria-label="Timeline"><svg class="plot" width="{len(lines)}em" height="{len(lines)}em" role="group" '
            'aria-label="Transactions in serial order">\n')
    for line, txn in enumerate(lines):
        it, denied = facts[txn], tallies[txn][3]
        about = f'{it["login"]}, began after {it["snap"]} commits, commit {it["commit"]}'
        begin, end = column(it["snap"]), column(it["commit"])
        mark = f'<svg x="{end}em"><path class="mark" d="M3 8l2-2 3 3 3-3 2 2-3 3 3 3-2 2-3-3-3 3-2-2 3-3z"/></svg>' if denied else ""
        out += (f'<a href="#t{txn}" aria-label="Transaction {txn} of {about}{", with denied rows" * bool(denied)}"><title>{txn} {about}</title><svg y="{line}em">'
                f'<rect class="band" x="-166" y="2" width="100%" height="20"/><rect class="bar" x="{begin}em" y="8" width="{end - begin}em" height="8" rx="3"/>{mark}'
                f'<text x="-158" y="16">{txn} {it["login"]}</text></svg></a>\n')
    for reader, writer, _ in conflicts:
        place, one, other = max(column(facts[reader]["snap"]), column(facts[writer]["snap"])), lines.index(reader), lines.index(writer)
        out += (f'<line class="rw" x1="{place}em" y1="{one}em" x2="{place}em" y2="{other}em" transform="translate(9,12)"/><svg x="{place}em" y="{other}em">'
                '<path class="tip" d="M9 8l-4-8h8z"/></svg>\n')
    return out + "</svg></div>\n"


# ---- the whole


def section(txn, facts, conflicts, body):
    notes = "".join(f'<p class="rwnote">stands before <a href="#t{writer}">{writer}</a>, which changed what it read: {html(what)}</p>\n' for reader, writer, what in conflicts if reader == txn)
    it = facts[txn]
    return f'<section class="t" id="t{txn}"><h3><span class="n">{txn}</span> {it["login"]}<small>commit {it["commit"]}</small></h3><div class="ss">\n{notes}{body}</div></section>\n'


def head(name, tallies, conflicts, finding):
    policy, style, _ = look()
    sums = [sum(it[place] for it in tallies.values()) for place in range(4)]
    counts = [("transactions", len(tallies)), ("statements", sums[0]), ("rows shown", sums[1]), ("rows written", sums[2]), ("rows denied", sums[3]), ("rw conflicts", len(conflicts))]
    about = "Who saw what, and why: each transaction of this audit, run again alone at its place in the serial order."
    return ('<!doctype html>\n<html lang="en"><head><meta charset="utf-8"><meta name="viewport" content="width=device-width,initial-scale=1">'
            f'<meta http-equiv="Content-Security-Policy" content="{policy}"><title>{data(name)}: who saw what, and why</title><style>{style}</style></head><body>'
            f'<a class="skip" href="#statements">To the statements</a><header><h1>{data(name)}</h1><p class="dim">{about}</p>\n<dl class="facts">'
            + "".join(f"<div><dt>{what}</dt><dd>{n}</dd></div>" for what, n in counts) + "</dl>\n"
            + (f'<p class="bad" role="alert">This audit does not hold: {finding}</p>\n' if finding else ""))


KEY = """</header><main><h2 id="timeline">Timeline</h2><p class="dim">From top to bottom the serial order, from left to right the commits. A bar goes from a begin to its commit.</p>
<ul class="key"><li><svg width="26" height="10" aria-hidden="true"><rect class="bar" y="1" width="24" height="8" rx="3"/></svg>begin to commit</li>\
<li><svg width="16" height="12" aria-hidden="true"><path class="mark" d="M1 2l2-2 3 3 3-3 2 2-3 3 3 3-2 2-3-3-3 3-2-2 3-3z"/></svg>a row was denied</li>\
<li><svg width="12" height="14" aria-hidden="true"><path class="rw" d="M5 0v6"/><path class="tip" d="M5 13l-4-8h8z"/></svg>to the one that changed what the other read</li></ul>
"""

FILTERS = """<h2 id="statements">Statements</h2><form class="filters" hidden><label>Role<select name="role"><option value="">all</option></select></label>\
<label>Table<select name="table"><option value="">all</option></select></label><label>Text<input type="search" name="q"></label>\
<label class="row"><input type="checkbox" name="denied"> with denied rows</label><label class="row"><button type="button" name="open" aria-pressed="false">Open all</button></label></form>\
<p class="dim" id="count" role="status"></p>
"""

FOOT = """</main><footer><p>A transaction that was rolled back, or refused with 40001, is not in an audit. <em>Shown</em>: listed, counted or returned; \
<em>written</em>: inserted, changed or deleted; <em>denied</em>: hidden, barred or refused. <em>Hidden</em>: the policies for SELECT deny the row; \
<em>barred</em>: those of the command do; <em>skipped</em>: allowed, but WHERE is not true; <em>matched</em>: it would have been changed, but the statement was refused.</p></footer><script>"""


def page_of(program, path, name, options=(), most=50):
    """The page of an audit, with options of `shown`."""
    with open(path, encoding="utf-8") as file:
        lines = [json.loads(line) for line in file]
    order, facts = lines[-1]["order"], {it["txn"]: it for it in lines[1:-1]}
    told, rows = statements_of(program, path), rows_of(program, path, options)
    given = {}
    for key, value in zip(options[::1], options[1::1]):
        if key.startswith("--") and not value.startswith("--"):
            given.setdefault(key, []).append(value)
    narrow = "--denied" in options or "--table" in given
    tallies, bodies = {}, {}
    for (txn, number), (role, text, came) in told.items():
        if role not in given.get("--role", [role]) or facts[txn]["login"] not in given.get("--login", [facts[txn]["login"]]) or str(txn) not in given.get("--txn", [str(txn)]):
            continue
        own = rows.get((txn, number), [])
        if narrow and not own:
            continue
        decided = decisions_of(program, path, txn, number) if own else []
        bodies[txn] = bodies.get(txn, "") + statement_text(role, text, came, own, decided, most)
        tally = tallies.setdefault(txn, [0, 0, 0, 0])
        tally[0] += 1
        for place, words in enumerate((SHOWN, WRITTEN, DENIED), 1):
            tally[place] += sum(it[0] in words for it in own)
    conflicts = [it for it in conflicts_of(program, path) if it[0] in tallies and it[1] in tallies]
    finding = subprocess.run([program, "graph", path], capture_output=True, timeout=SECONDS).stderr.decode("utf-8").removeprefix(f"rlsdb: {path}: ").strip()
    body = "".join(section(txn, facts, conflicts, bodies[txn]) for txn in order if txn in bodies)
    return head(name, tallies, conflicts, finding) + KEY + plot(order, facts, tallies, conflicts) + FILTERS + body + FOOT + look()[2] + "</script></body></html>\n"
