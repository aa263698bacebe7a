"""Pieces of HTML. Names are other people's text: whatever is not made here goes through `esc`."""

import html


def esc(text):
    return html.escape(str(text), quote=True)


def section(name, title, body):
    """A part of the page with its heading, which also names it for screen readers."""
    return '<section aria-labelledby="%s-h"><h2 id="%s-h">%s</h2>%s</section>' % (name, name, esc(title), body)


def table(caption, heads, rows, sorts=None):
    """A table whose first column heads its rows. Cells are HTML already; `sorts` gives a class to each row."""
    titled = "<caption>%s</caption>" % esc(caption) if caption else ""
    head = "".join('<th scope="col">%s</th>' % esc(one) for one in heads)
    body = "".join(row_of(cells, sort) for cells, sort in zip(rows, sorts or [None] * len(rows)))
    return '<div class="scroll"><table>%s<thead><tr>%s</tr></thead><tbody>%s</tbody></table></div>' % (titled, head, body)


def row_of(cells, sort=None):
    first, *others = cells
    kind = ' class="%s"' % sort if sort else ""
    return '<tr%s><th scope="row">%s</th>%s</tr>' % (kind, first, "".join("<td>%s</td>" % cell for cell in others))


def details(name, summary, body, opened=False):
    return '<details id="%s"%s><summary>%s</summary>%s</details>' % (name, " open" if opened else "", esc(summary), body)
