"""The manual pages: what the help of a program says, and behind it parts of a page of docs/, by pandoc."""
import re
import subprocess
import textwrap

# The manual page that has what a page of docs/ says; of others the package has the page itself.
PAGES = {
    "BMCLAB": "bmclab(1)",
    "BMCNET": "bmcnet(1)",
    "BOARD_FILES": "hozterqui-board(5)",
    "PLAN_FILES": "hozterqui-plan(5)",
    "SCHEDULES": "hozterqui-schedule(5)",
}
DOCS = "/usr/share/doc/hozterqui"
# How far code is set in, and how many columns it has behind that.
INDENT, COLUMNS = 4, 76
MARKDOWN = "markdown-smart-citations-tex_math_dollars-raw_tex-raw_html-subscript-superscript-strikeout-implicit_figures"
# Name and section of a manual page; the package; the program whose help it shows; the page; the parts of the page, or all; and those left out, of
# whatever depth.
MANUALS = {
    "bmclab.1": ("hozterqui", "bmclab", "BMCLAB.md", None, ["The script `./bmclab`"]),
    "bmcnet.1": ("hozterqui", "bmcnet", "BMCNET.md", None, ["The script `./bmcnet`", "The undo text"]),
    "hozterqui.1": ("hozterqui", "hozterqui", None, None, []),
    "hozterqui-board.5": ("hozterqui", None, "BOARD_FILES.md", None, []),
    "hozterqui-plan.5": ("hozterqui", None, "PLAN_FILES.md", None, []),
    "hozterqui-undo.5": ("hozterqui", None, "BMCNET.md", ["The undo text", "The journal's text", "The journal of a run"], []),
    "hozterqui-schedule.5": ("hozterqui", None, "SCHEDULES.md", None, []),
    "lan-bridge.1": ("hozterqui-clients", "lan-bridge", "CLIENTS.md", ["Clients reach the controller"], []),
    "controller-bridge.1": ("hozterqui-clients", "controller-bridge", "CLIENTS.md", ["A plan on somebody else's controller"], []),
    "lossy-link.1": ("hozterqui-clients", "lossy-link", "CLIENTS.md", ["A bus that fails on request"], []),
    "hozterqui-new-board.1": ("hozterqui-clients", "hozterqui-new-board", "CLIENTS.md", ["Boards that look like servers"], []),
    "hozterqui-capture.1": ("hozterqui-clients", "hozterqui-capture", "CLIENTS.md", ["Captures"], []),
    "hozterqui-chart-svg.1": ("hozterqui-clients", "hozterqui-chart-svg", None, None, []),
}
ABOUT = {
    "hozterqui-board.5": "what a board begins with",
    "hozterqui-plan.5": "which records a manager changes, and to what",
    "hozterqui-undo.5": "what takes a plan back",
    "hozterqui-schedule.5": "what happens in a lab, a line an event",
}


def parts_of(text):
    """Yields the parts of a page: the heading of each, or None, and its lines."""
    title, lines, is_fenced = None, [], False
    for line in text.splitlines():
        is_fenced ^= line.startswith("```")
        if line.startswith("## ") and not is_fenced:
            yield title, lines
            title, lines = line[3:], []
        elif not (line.startswith("# ") and not is_fenced):
            lines.append(line)
    yield title, lines


def without_parts(lines, left):
    """Returns the lines of a part without those of its own parts that have these headings."""
    made, is_left = [], False
    for line in lines:
        if line.startswith("### "):
            is_left = line[4:] in left
        made += [] if is_left else [line]
    return made


def cells_of(line):
    """Returns the cells of a table's row."""
    return [cell.strip().replace("\\|", "|") for cell in re.split(r"(?<!\\)\|", line.strip())[1:-1]]


def as_list(rows):
    """Returns a table as a list of terms, since columns of forty characters read badly: a row's first cell, and the others with their heads."""
    heads, lines = cells_of(rows[0]), []
    for row in rows[2:]:
        cells = cells_of(row)
        said = [(head, cell) for head, cell in zip(heads[1:], cells[1:]) if cell]
        text = said[0][1] if len(said) == 1 and len(heads) == 2 else "; ".join(f"*{head}*: {cell}" for head, cell in said)
        lines += ["", cells[0] or "(none)", "", f":   {text or '(nothing)'}"]
    return [*lines, ""]


def without_tables(lines):
    """Returns lines with each table as a list."""
    made, rows = [], []
    for line in [*lines, ""]:
        if line.startswith("|"):
            rows.append(line)
            continue
        made += as_list(rows) if rows else []
        rows = []
        made.append(line)
    return made


def narrow(line):
    """Returns the lines that a line of code is shown as: a call that is too long is continued, and a remark goes on as one."""
    if len(line) <= COLUMNS:
        return [line]
    is_call = re.match(r"(\$ |bmclab |bmcnet |ipmitool |lan-|controller-|hozterqui-)", line) and "[" not in line
    own = COLUMNS - 2 if is_call else COLUMNS
    behind = "# " if line.startswith("#") else "    "
    parts = textwrap.wrap(line, own, subsequent_indent=behind, break_long_words=False, break_on_hyphens=False)
    return [f"{part} \\" for part in parts[:-1]] + parts[-1:] if is_call else parts


def with_narrow_code(text):
    """Returns a text of Markdown whose code fits on eighty columns."""
    made, is_fenced = [], False
    for line in text.split("\n"):
        is_fenced ^= line.startswith("```")
        margin = "    " if line.startswith("    ") and not is_fenced else ""
        is_code = margin or (is_fenced and not line.startswith("```"))
        made += [margin + it for it in narrow(line[len(margin) :])] if is_code else [line]
    return "\n".join(made)


def where(name):
    """Returns how a manual page names a page of docs/."""
    page = PAGES.get(name)
    return re.sub(r"(.*)(\(\d\))", r"**\1**\2", page) if page else f"*{DOCS}/{name}.md*"


def for_calls(text):
    """Returns text with calls as they are where the package is installed."""
    text = re.sub(r"(?<!\w)\./(bmclab|bmcnet)\b", r"\1", text)
    text = re.sub(r"\bclients/(lan-bridge|controller-bridge|lossy-link)\b", r"\1", text)
    return re.sub(r"\bclients/(capture|chart-svg|new-board)\b", r"hozterqui-\1", text)


def for_package(text):
    """Returns text with calls, links and names of pages as they are where the package is installed."""
    text = for_calls(text)
    text = re.sub(r"\[([^\]]+)\]\((?:\.\./)?(?:docs/)?([A-Z_]+)\.md[^)]*\)", lambda it: f"{it[1]} ({where(it[2])})", text)
    text = re.sub(r"\[([^\]]+)\]\(#[^)]*\)", r"\1", text)
    text = re.sub(r"`(?:docs/)?([A-Z_]+)\.md`", lambda it: where(it[1]), text)
    return re.sub(r"(?<![/\w])docs/([A-Z_]+)\.md", rf"{DOCS}/\1.md", text)


def body_of(top, page, taken, left):
    """Returns the parts of a page that a manual has, under heads of a manual."""
    with open(f"{top}/docs/{page}", encoding="utf-8") as file:
        text = file.read()
    parts = list(parts_of(text))
    found = [(title, without_parts(lines, left)) for title, lines in parts if title in (taken or {title}) and title not in left]
    if not {*(taken or ()), *left} <= set(re.findall(r"(?m)^###? (.*)", text)):
        raise SystemExit(f"docs/{page} lacks a part that a manual page names")
    made = []
    for title, lines in found:
        made += ["", f"# {(title or 'Description').replace('`', '').upper()}", ""] + [re.sub("^##(#+ )", r"#\1", line) for line in without_tables(lines)]
    return "\n".join(made)


def said_by(help_text, head):
    """Returns the terms and texts that a help lists under this head."""
    found = re.search(rf"(?m)^{head}:\n((?:[ ]+.*\n|\n(?=  ))*)", help_text + "\n")
    entries = []
    for line in found[1].splitlines() if found else []:
        entry = re.match(r" {2,6}(\S.*?)(?: {2,}(\S.*))?$", line)
        if entry and (line.startswith("  ") and not line.startswith("        ")):
            entries.append([entry[1], entry[2] or ""])
        elif line.strip() and entries:
            entries[-1][1] = f"{entries[-1][1]} {line.strip()}".strip()
    return entries


def terms(entries):
    return "\n".join(f"\n`{term}`\n\n:   {escaped(text) or '(no more is said)'}\n" for term, text in entries)


def escaped(text):
    return re.sub(r"([*_<>\[\]\\])", r"\\\1", re.sub(r"`([^`]*)`", r"\1", text))


def of_help(name, helps):
    """Returns the synopsis and the words of a program by its helps: that of the program, and those of its commands."""
    usages = [re.sub(r"^usage:", "Usage:", text, flags=re.M) for text in helps.values()]
    synopsis = [re.search(r"(?m)^Usage: (.*(?:\n {3,}\S.*)*)", text)[1] for text in usages]
    lines = ["# SYNOPSIS", "", *(f"    {' '.join(line.split())}" for line in synopsis)]
    for command, text in helps.items():
        words = [*said_by(text, "Arguments"), *said_by(text, "positional arguments"), *said_by(text, "Options"), *said_by(text, "options")]
        if command and words:
            lines += ["", f"# words of {name} {command}".upper(), "", escaped(text.split("\n")[0]) + ".", terms(words)]
        elif words and len(helps) == 1:
            lines += ["", "# OPTIONS", "", terms(words)]
    return "\n".join(lines)


def description_of(help_text):
    """Returns what a client's help says behind its usage."""
    found = re.search(r"(?ms)^(?:usage|Usage): .*?\n\n(.*?)(?=^(?:positional arguments|options):)", help_text)
    return found[1] if found else ""


def manual(top, page, helps, version, date):
    """Returns a manual page, as troff."""
    _, program, source, taken, left = MANUALS[page]
    name, section = page.rsplit(".", 1)
    if program:
        about = (description_of(helps[""]) or helps[""]).strip().split("\n")[0].rstrip(".")
        about = re.split(r"[:,;] ", about)[0]
    else:
        about = ABOUT[page]
    text = f"# NAME\n\n{name} - {escaped(about[0].lower() + about[1:])}\n\n"
    text += of_help(name, helps) if program else ""
    if program and description_of(helps[""]):
        text += "\n\n# DESCRIPTION\n\n" + description_of(helps[""])
    text += body_of(top, source, taken, left) if source else ""
    text += f"\n\n# FILES\n\nThe files that the examples name stand in */usr/share/hozterqui*: calls are as there. The pages stand in *{DOCS}*.\n"
    text += "\n# SEE ALSO\n\n" + ", ".join(f"**{it.rsplit('.', 1)[0]}**({it[-1]})" for it in MANUALS if it != page) + "\n"
    call = ["pandoc", "-f", MARKDOWN, "-t", "man", "-s", "--columns=500", "-M", f"title={name.upper()}", "-M", f"section={section}"]
    call += ["-M", f"footer=hozterqui {version}", "-M", "header=Hozterqui", "-M", f"date={date}"]
    made = subprocess.run(call, input=with_narrow_code(for_package(text)), stdout=subprocess.PIPE, text=True, check=True).stdout
    # Code is bold, as in other manual pages, and lines stand as they are written: no column is filled with spaces.
    made = made.replace("\\f[V]", "\\f[B]").replace("\\f[C]\n", "").replace("\n\\f[R]\n.fi", "\n.fi").replace("\\f[C]", "\\f[B]")
    made = made.replace(".IP\n.nf\n", f".PP\n.in {INDENT}n\n.nf\n")
    return re.sub(r"(?m)^(\.TH .*\n)(?:\.hy\n)?", r"\1.ad l\n.nh\n", made, count=1)
