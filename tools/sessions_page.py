"""sessions_page: the page that tells who is there. It has no script, and asks nothing of the net."""
import string
import time
from html import escape

from story_page import digest, part, styled


def page(source, head, rows, summary):
    """The page of the rows of a folder or a database, each with what stands in its columns."""
    style = styled(0) + part("sessions.css")
    return string.Template(part("sessions.html")).substitute(
        policy=f"default-src 'none'; style-src {digest(style)}; base-uri 'none'; form-action 'none'", style=style,
        title=f"Sessions of {escape(source.name())}", summary=escape(summary), when=time.strftime("%Y-%m-%d %H:%M:%S UTC", time.gmtime()),
        story=escape(source.story()), head="".join(f'<th scope="col">{escape(it)}</th>' for it in head),
        rows="\n".join(line(row, cells) for row, cells in rows))


def line(row, cells):
    """A row of the table, whose number leads to the command that writes its story."""
    kind = ' class="wrong"' if row.wrong else ' class="ended"' if row.is_ended else ""
    number, *others = map(escape, cells)
    return f'<tr{kind}><th scope="row"><a href="#story">{number}</a></th>' + "".join(f"<td>{it}</td>" for it in others) + "</tr>"
