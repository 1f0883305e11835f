"""The page of `report`, of its facts and pictures."""

import html

from report_pictures import pairs_picture, waits_picture, workers_picture, worst
from tables import human

STYLE = (
    "body { font-family: sans-serif; max-width: 62em; margin: 2em auto; padding: 0 1em; color: #333 } "
    "td, th { padding: 0.1em 0.8em; text-align: right } td:first-child, th:first-child { text-align: left } "
    "th { border-bottom: 1px solid #999 } .name { text-align: left } svg { max-width: 100% }"
)


def table_in_html(table):
    """A table as an element."""
    rows = [[column.name for column in table.columns]]
    for row in table.rows:
        rows.append(["-" if it is None else column.shown(it, None) for column, it in zip(table.columns, row)])
    cells = lambda row, name: "".join(f"<{name}>{html.escape(it)}</{name}>" for it in row)
    lines = (f"<tr>{cells(row, 'td' if place else 'th')}</tr>\n" for place, row in enumerate(rows))
    return f"<table>\n{''.join(lines)}</table>\n"


def paragraphs(sentences):
    return "".join(f"<p>{html.escape(it)}.</p>\n" for it in sentences)


def workers_part(today, shown, verdict):
    """The picture of the workers at the worst."""
    number = worst(today, verdict.victims or range(len(today.tenants)))
    if number is None:
        return ""
    name, wait = today.tenants[today.tenant[number]], today.taken[number] - today.submitted[number]
    told = f"Which worker ran whose requests while a request of {name} waited {human(wait)}, from"
    told += f" {human(today.submitted[number])} on"
    return paragraphs([told]) + workers_picture(today, shown, number)


def page(facts, pairs, today, verdict, shown):
    """The whole report."""
    notes = "".join(f"<li>{html.escape(it)}</li>\n" for it in facts["notes"])
    for_whom = pairs_picture(today, verdict, shown) if verdict.victims else ""
    needed = f"{paragraphs(facts['wanted'])}{table_in_html(facts['workers_needed'])}"
    parts = [
        '<!DOCTYPE html>\n<html lang="en">\n<meta charset="utf-8">\n<title>Who waits for whom</title>\n',
        f"<style>{STYLE}</style>\n<h1>Who waits for whom</h1>\n<p>{html.escape(facts['about'])}.</p>\n",
        f"<ul>\n{notes}</ul>\n" if notes else "",
        f"<h2>The verdict</h2>\n{paragraphs(facts['verdict'])}",
        f"<h2>Who suffered, and when</h2>\n{table_in_html(facts['victims'])}{waits_picture(today, shown)}",
        f"<h2>Who took more than its share</h2>\n{table_in_html(facts['culprits'])}",
        workers_part(today, shown, verdict),
        f"<h2>For whom the victims waited</h2>\n{for_whom}{table_in_html(pairs)}",
        f"<h2>What would help</h2>\n<p>The waits of {facts['whose']}. {html.escape(facts['reserve'])}</p>\n",
        table_in_html(facts["changes"]),
        f"<h2>How many workers</h2>\n<p>The 99th percentile of the same waits.</p>\n{needed}</html>\n",
    ]
    return "".join(parts)
