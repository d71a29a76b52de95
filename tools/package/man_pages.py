"""The man pages of the installed commands, in roff: of what their --help tells, and of pages of docs/."""

import re

CODE = re.compile(r"`([^`]+)`")
LINK = re.compile(r"\[([^\]]+)\]\([^)]*\)")
USAGE = re.compile(r"(?P<flag>(?<![\w-])--?[A-Za-z][\w-]*)|\b[A-Z][A-Z/.]*(?:db)?\b")
STATUS = "Exit status: "
SIGNS = str.maketrans({"\\": "\\e", "-": "\\-", "'": "\\(aq", "`": "\\(ga", "^": "\\(ha", "~": "\\(ti"})
# of a cell of a table, in characters: a wider one is filled
WIDEST = 18


def escaped(text):
    """A text as roff prints it."""
    return text.translate(SIGNS)


def line(text):
    """An escaped text as a line that is no request."""
    return f"\\&{text}" if text[:1] in (".", "'") else text


def prose(text):
    """Text of a sentence or more, in one line; `code` and **what is stressed** are bold."""
    text, found = LINK.sub(r"\1", " ".join(text.split())).replace("**", ""), []
    for place, part in enumerate(CODE.split(text)):
        found.append(f"\\fB{escaped(part)}\\fR" if place % 2 else escaped(part))
    return line("".join(found))


def marked(usage):
    """A usage line: options bold, values italic."""
    found, place = [], 0
    for it in USAGE.finditer(usage):
        found += [escaped(usage[place : it.start()]), f"\\f{'B' if it['flag'] else 'I'}{escaped(it[0])}\\fR"]
        place = it.end()
    return line("".join([*found, escaped(usage[place:])]))


def as_it_is(lines):
    """Lines that are printed as they stand."""
    return [".EX", *(line(escaped(one)) for one in lines), ".EE"]


def paragraphs(text):
    """Blocks of a text, filled, or as they stand where blanks lay them out; what an exit status means has a heading."""
    found = []
    for block in text.strip("\n").split("\n\n"):
        lines = block.splitlines()
        if any("  " in one.strip() or one.startswith(" ") for one in lines):
            found += [".P", *as_it_is(lines)]
            continue
        head, _, tail = block.partition(STATUS)
        found += [".P", prose(head)] if head.strip() else []
        if tail:
            first, _, rest = tail.partition(".\n")
            found += ['.SH "EXIT STATUS"', prose(first + ("." if rest else ""))]
            found += [".P", prose(rest)] if rest else []
    return found


def words_of(command):
    """The words of a command that say something of themselves, but for --help."""
    found = []
    for word in [*command.places, *(option for option in command.options if "--help" not in option.names)]:
        names = ", ".join(f"\\fB{escaped(name)}\\fR" for name in word.names)
        value = f"\\fI{escaped(word.metavar)}\\fR" if word.metavar else ""
        seen = f"{word.about}: {', '.join(word.choices)}" if word.choices and word.metavar[:1] != "{" else word.about
        if seen or word.names:
            found += [".TP", line(f"{names} {value}".strip()), prose(seen) if seen else "\\&"]
    return found


def page(name, section, version, day, summary, body):
    """A page."""
    manual = {1: "User Commands", 5: "File Formats Manual"}[section]
    # tables are laid out first; no word is broken, and no line is spread
    lines = ["'\\\" t", f'.TH {escaped(name.upper())} {section} {day} "opcplan {version}" "{manual}"', ".nh", ".ad l",
             ".SH NAME", f"{escaped(name)} \\- {prose(summary)}", *body]
    # a heading begins a paragraph itself
    kept = [one for before, one in zip(["", *lines], lines) if one != ".P" or not before.startswith((".SH", ".SS"))]
    return "\n".join(kept) + "\n"


def see(*names):
    """The section that names other pages."""
    return [".SH SEE ALSO", ", ".join(f"\\fB{escaped(name[:-3])}\\fR{name[-3:]}" for name in names)]


def sentence(text):
    """A text as a sentence."""
    return text[:1].upper() + text[1:] + ("" if text.endswith(".") else ".")


def program_page(command, version, day):
    """opcplan(1)."""
    about, _, more = command.about.partition("\n\n")
    summary = about[0].lower() + about[1:]
    body = [".SH SYNOPSIS", marked(command.usage), ".SH DESCRIPTION", prose(f"{about}."), ".SH OPTIONS",
            *words_of(command), ".SH STATEMENTS", *paragraphs(more),
            *see("opcplan-plan(1)", "opcplan-statements(5)", "sqlite3(1)")]
    return page("opcplan", 1, version, day, summary, body)


def plan_page(command, end, version, day):
    """opcplan-plan(1): all subcommands, and what stands at the end of the help."""
    summary = command.summary.partition(". ")[0]
    body = [".SH SYNOPSIS", marked(f"{command.name} SUBCOMMAND ..."), ".br", marked(f"{command.name} --help"), ".br",
            marked(f"{command.name} --version"), ".SH DESCRIPTION", prose(sentence(command.about)), ".SH SUBCOMMANDS"]
    for below in command.commands:
        body += [f'.SS "{escaped(below.name)}"', *command_lines(below)]
    body += [*paragraphs(end), *see("opcplan(1)", "opcplan-statements(5)", "sqlite3(1)")]
    return page("opcplan-plan", 1, version, day, summary, body)


def command_lines(command):
    """What a subcommand does, its usage and its words, and so of those below it."""
    lines = [marked(command.usage), ".P", prose(sentence(command.about)), *words_of(command)]
    for below in command.commands:
        lines += [".P", *command_lines(below)]
    return lines


# A page of docs/.


def document_page(name, summary, text, left_out, version, day):
    """A page of section 5 of a text in Markdown, without the sections that are left out."""
    body = []
    for part in re.split(r"(?m)^(?=## )", text.partition("\n")[2]):
        heading, _, rest = part.partition("\n") if part.startswith("## ") else ("## Description", "", part)
        if heading[3:] not in left_out and part.strip():
            body += [f'.SH "{escaped(heading[3:].upper())}"', *document_lines(rest)]
    body += see("opcplan(1)", "opcplan-plan(1)")
    return page(name, 5, version, day, summary, body)


def document_lines(text):
    """The blocks of a section: fences, tables, lists, headings and paragraphs."""
    found = []
    for block in re.findall(r"(?ms)^```.*?^```$|^(?:(?!```)[^\n]+\n?)+", text):
        lines = block.splitlines()
        if block.startswith("```"):
            found += [".P", *as_it_is(lines[1:-1])]
        elif block.startswith("|"):
            found += table([[cell.strip() for cell in re.split(r"(?<!\\)\|", one.strip()[1:-1])] for one in lines])
        elif block.startswith("- "):
            for item in re.split(r"(?m)^- ", block)[1:]:
                found += [".IP \\(bu 2", prose(item)]
        elif block.startswith("### "):
            found.append(f'.SS "{escaped(block[4:].strip())}"')
        else:
            found += [".P", prose(block)]
    return found


def table(rows):
    """A table, of whose columns those take the room whose cells are long."""
    head, _, *rest = rows
    longest = [max(len(row[place]) if place < len(row) else 0 for row in rows) for place in range(len(head))]
    kinds = [f"lw({min(most, WIDEST)}n)" if most <= WIDEST else "lx" for most in longest]
    lines = [".TS", "tab(\t);", " ".join("lb" + kind[1:] for kind in kinds), " ".join(kinds) + "."]
    for row in [head, *rest]:
        cells = [prose(cell) for cell in row]
        lines.append("\t".join(f"T{{\n{cell}\nT}}" if cell else "" for cell in cells))
    return [".P", *lines, ".TE"]
