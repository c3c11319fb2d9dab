"""man_pages: the man pages of an installed mps, of what --help says and of sections of docs/FORMATS.md."""
import re

import manual

HEAD = '.TH {title} {section} "{date}" "Cizhmolat {version}" "Cizhmolat"\n.SH NAME\n{name} \\- {about}\n'
ALSO = ("mps(1)", "mps-serve(1)", "mps-host(1)", "mps-journal(1)", "mps-protocols(5)")


# --- Text --------------------------------------------------------------------------------------------------------------

def escaped(text):
    """The text, of which man reads nothing as its own."""
    for mark, spelled in (("\\", "e"), ("-", "-"), ("^", "(ha"), ("~", "(ti"), ("`", "(ga")):
        text = text.replace(mark, f"\\{spelled}")
    return re.sub(r"(?m)^(?=[.'])", r"\\&", text)


def inline(text):
    """A line of Markdown: code and bold text in bold, stressed words in italics, and of a link its text."""
    text = re.sub(r"\[((?:`[^`]*`|[^]`])*)\]\([^)\s]*\)", r"\1", text)
    found = ""
    for code, bold, stressed, other in re.findall(r"`([^`]+)`|\*\*([^*]+)\*\*|\*([^*]+)\*|([^`*]+|.)", text):
        found += escaped(other) or f"\\f{'I' if stressed else 'B'}{escaped(code or bold or stressed)}\\fR"
    return found


def of_markdown(text):
    """A part of a page in Markdown, with headings, lists, blocks of code and paragraphs, as man has it."""
    for at, piece in enumerate(re.split(r"(?m)^```\w*\n", text)):
        if at % 2:
            yield f".PP\n.RS 4\n.nf\n{escaped(piece)}.fi\n.RE\n"
            continue
        for line in filter(None, piece.splitlines()):
            if line.startswith("#"):
                yield f".{'SH' if line.startswith('## ') else 'SS'} {escaped(line.lstrip('# '))}\n"
            else:
                yield f".IP \\(bu 2\n{inline(line[2:])}\n" if line.startswith("- ") else f".PP\n{inline(line)}\n"


def plain(text):
    """Some sentences of a help."""
    return escaped(re.sub(r"\s+", " ", text)) + "\n"


def part(page, begin, end):
    """What stands between the two lines that begin so, the first included."""
    return re.search(rf"^{re.escape(begin)}.*?(?=^{re.escape(end)})", page, flags=re.MULTILINE | re.DOTALL)[0]


# --- Pages -------------------------------------------------------------------------------------------------------------

def options_of(order):
    """The options of an order, as a list."""
    for option in order.options:
        value = escaped("|".join(option.choices) or option.value)
        value = f"[{value}]" if option.is_optional else value
        yield f".TP\n\\fB{escaped(', '.join(option.names))}\\fR \\fI{value}\\fR\n{plain(option.text)}"


def also(name):
    """What stands at the end of each page."""
    return ".SH SEE ALSO\n" + ",\n".join(f"\\fB{escaped(page[:-3])}\\fR{page[-3:]}" for page in ALSO if page[:-3] != name) + "\n"


def statuses(paragraph):
    """The paragraph of the help of mps on its statuses."""
    lines = paragraph.splitlines()
    rows = [row for row in lines if re.match(r"\d ", row)]
    rest = " ".join(lines[1 + len(rows):])
    listed = [entry.split(" ", 1) for row in rows for entry in re.split(r" {2,}", row)]
    return "".join(f".TP\n.B {number}\n{plain(text)}" for number, text in listed) + f".PP\n{plain(rest)}"


def main_page(orders, help_text):
    """mps.1: the help of mps, and the options of the orders that have no page of their own."""
    first, *_ = help_text.splitlines()
    *more, last = manual.paragraphs(help_text)
    found = [first.partition(": ")[2].rstrip("."), ".SH SYNOPSIS\n.B mps\n.I ORDER\nWORDS ..\n.SH DESCRIPTION\n"]
    found += [f".TP\n\\fBmps {escaped(use)}\\fR\n{plain(text)}" for use, text in manual.entries(help_text)]
    found += [f".PP\n{plain(text)}" for text in more] + [".SH OPTIONS\n"]
    for order in orders:
        if order.options and f"mps-{order.name}(1)" not in ALSO:
            found += [f".SS mps {order.name}\n", *options_of(order)]
    return found + [f".SH EXIT STATUS\n{statuses(last)}"]


def server_page(order, formats):
    """mps-serve.1 or mps-host.1: the help of the order, and what docs/FORMATS.md says of it."""
    end = {"serve": "`mps_tool host", "host": "With `--verbose`"}[order.name]
    use = ".SH SYNOPSIS\n.B mps\n" + plain(order.use)
    arguments = "".join(f".TP\n.I {escaped(name)}\n{plain(text)}" for name, text in order.arguments)
    about = part(formats, f"`mps_tool {order.name} ", end).replace("`mps_tool ", "`mps ")
    options = [".SH OPTIONS\n", arguments, *options_of(order)]
    watched = of_markdown(formats[formats.index("## What a server tells"):])
    return [order.text[0].lower() + order.text[1:], use, ".SH DESCRIPTION\n", *of_markdown(about), *options, *watched]


def journal_page(order, help_text, formats):
    """mps-journal.1: the help of the order, and what a recorded session's file has."""
    uses = [(use, text) for use, text in manual.entries(help_text) if use.startswith("journal ")]
    found = ["tells what a recorded session has, or has it begun anew", ".SH SYNOPSIS\n"]
    found += [".PP\n".join(f"\\fBmps {escaped(use)}\\fR\n" for use, _ in uses), ".SH DESCRIPTION\n"]
    found += [f".TP\n\\fBmps {escaped(use)}\\fR\n{plain(text)}" for use, text in uses]
    return found + [".SH OPTIONS\n", *options_of(order), *of_markdown(part(formats, "## The files of", "## The program"))]


def pages(orders, help_text, formats, version, date):
    """Each man page: its name with its section, and its text."""
    named = {order.name: order for order in orders}
    texts = {"mps.1": main_page(orders, help_text), "mps-journal.1": journal_page(named["journal"], help_text, formats),
             **{f"mps-{name}.1": server_page(named[name], formats) for name in ("serve", "host")},
             "mps-protocols.5": ["the protocols that mps reads", ".SH DESCRIPTION\n",
                                 *of_markdown(re.sub("(?m)^(#+)", r"#\1", part(formats, "## Names", "## Local type text")))]}
    for file, (about, *text) in texts.items():
        name, section = file.split(".")
        words = {"title": escaped(name.upper()), "name": escaped(name), "about": escaped(about)}
        yield file, HEAD.format(section=section, date=date, version=version, **words) + "".join(text) + also(name)
