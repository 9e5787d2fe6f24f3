"""Writes the page of a recording or a log as one HTML file, which loads nothing: its texts, its data, and the script that draws it."""

import html
import pathlib
import re

from .groups import groups_of
from .model import PHASES, Tone, Unit, depths_of
from .packing import Texts, column, packed, script_json
from .words import counted

HERE = pathlib.Path(__file__).resolve().parent
SIGNS = {Tone.GOOD: "\u2713", Tone.BAD: "\u2717", Tone.OPEN: "?", Tone.PLAIN: "\u00b7"}
LINES = re.compile(r"\b(log |illegal |dmesg )?(lines?) (\d{1,9})(?: (to|and) (\d{1,9}))?")
LETTERS = {"log ": "G", "illegal ": "G", "dmesg ": "D"}  # By which an anchor begins; L is the trace, or the log of draw.
SLOWEST = 12  # So many devices stand in the table of the slowest,
LEAST = 500  # each with callbacks of this many microseconds in all, and the phases in which one of them took so long.
POLICY = "default-src 'none'; style-src 'unsafe-inline'; script-src 'unsafe-inline'"
LEGEND = [
    ("k-suspend", "suspend"), ("k-late", "late"), ("k-noirq", "noirq"), ("k-resume_noirq", "resume_noirq"), ("k-early", "early"),
    ("k-resume", "resume"), ("k-prepare", "prepare, complete"), ("k-active", "event of a wakeup source"),
]
OTHER_KINDS = {"k-prepare": ("complete",), "k-active": ("event", "awake", "hard")}
LEGEND_PATH = [("k-suspend path", "longest path: a red edge, and its steps counted")]
LEGEND_ERROR = [("k-suspend bad", "answered an error: hatched, with \u2717")]
TOOLS = [("left", "\u2039", "to the left"), ("right", "\u203a", "to the right"), ("in", "+", "zoom in"), ("out", "\u2212", "zoom out"),
         ("whole", "whole", "the whole attempt")]


def linked(text, page):
    """A text as HTML, in which each 'line N' leads to that line of the log, if there is one."""

    def link(found):
        of_what, word, first, joint, last = found.groups()
        letter = LETTERS.get(of_what, "L")
        count = len({"L": page.lines, "G": page.judged, "D": page.dmesg}[letter])
        parts = [of_what or "", anchor(letter, count, f"{word} {first}", int(first))]
        parts += [f" {joint} ", anchor(letter, count, last, int(last))] if last else []
        return "".join(parts)

    return LINES.sub(link, html.escape(text))


def anchor(letter, count, words, number):
    return f'<a href="#{letter}{number}">{words}</a>' if 1 <= number <= count else words


def items(texts, page, kind):
    """A list of sentences; nothing for none."""
    inside = "".join(f"<li>{linked(text, page)}</li>\n" for text in texts)
    return f'<ul class="{kind}">\n{inside}</ul>\n' if texts else ""


def ms(time):
    """A time in microseconds as ms, with as many digits as one reads."""
    size = time / 1000
    return f"{size:,.{0 if size >= 100 else 1 if size >= 10 else 2 if size >= 1 else 3}f} ms"


def headline(page, tone, text):
    return f'<p class="headline {tone.value}"><span class="sign" aria-hidden="true">{SIGNS[tone]}</span> {linked(text, page)}</p>\n'


def verdict_part(page):
    """The verdict, what stopped an attempt, and notes."""
    heads = headline(page, page.tone, page.headline) + (headline(page, Tone.BAD, page.stop) if page.stop else "")
    tone = Tone.BAD if page.stop else page.tone
    notes = ""
    if page.notes:
        is_open = " open" if len(page.notes) <= 4 else ""
        notes = f"<details{is_open}><summary>{counted(len(page.notes), 'note')}</summary>\n{items(page.notes, page, 'notes')}</details>\n"
    return f'<section class="verdict {tone.value}" aria-label="verdict">\n{heads}{items(page.details, page, "details")}</section>\n{notes}'


def strip(page, attempt):
    """A button a stage, which zooms to it."""
    buttons = []
    for place, stage in enumerate(attempt.stages):
        size = f" {ms(stage.end - stage.begin)}" if page.unit is Unit.TIME else ""
        words = html.escape(f"{stage.name}{size}{': ' + stage.answer if stage.answer else ''}")
        kind = ' class="bad"' if stage.answer else ""
        swatch = f'<i class="k-{stage.kind}"></i>' if stage.kind else ""
        buttons.append(f'<button type="button"{kind} data-stage="{place}">{swatch}{words}</button>')
    tools = "".join(f'<button type="button" data-tool="{tool}" aria-label="{words}" title="{words}">{sign}</button>' for tool, sign, words in TOOLS)
    return f'<div class="strip">{"".join(buttons)}<span class="tools">{tools}</span></div>\n'


def slowest_table(page, attempt):
    """The devices whose callbacks took longest, with each phase."""
    if page.unit is not Unit.TIME:
        return ""
    times = {}
    for mark in attempt.marks:
        if mark.is_callback:
            of = times.setdefault(mark.row, dict.fromkeys(PHASES, 0))
            of[mark.kind] = of.get(mark.kind, 0) + mark.end - mark.begin
    rows = sorted(times, key=lambda row: -sum(times[row].values()))[:SLOWEST]
    rows = [row for row in rows if sum(times[row].values()) >= LEAST] or rows[:3]
    if not rows:
        return ""
    shown = [phase for phase in PHASES if any(times[row][phase] >= LEAST for row in rows)]
    head = "".join(f"<th>{words}</th>" for words in ["device", "in all", *shown])
    body = ""
    for row in rows:
        cells = [ms(sum(times[row].values()))] + [ms(times[row][phase]) if times[row][phase] else "" for phase in shown]
        name = html.escape(page.rows[row].name) + (f" <small>{html.escape(page.rows[row].about)}</small>" if page.rows[row].about else "")
        body += f'<tr data-row="{row}"><td><button type="button" class="go">{name}</button></td>' + "".join(f'<td class="n">{cell}</td>' for cell in cells) + "</tr>\n"
    return f'<h3>Slowest devices</h3>\n<div class="scroll"><table><tr>{head}</tr>\n{body}</table></div>\n'


def path_part(page, attempt):
    """The longest path in words, phase by phase."""
    if not attempt.path:
        return ""
    phases = {}
    for step in attempt.path:
        phases.setdefault(step.phase, []).append(path_step(page, attempt, step))
    lists = "".join(f"<h4>{html.escape(phase)}</h4><ol>\n{''.join(steps)}</ol>\n" for phase, steps in phases.items())
    return f'<details{" open" if len(attempt.path) <= 20 else ""}><summary><b>The longest path</b></summary>\n<div class="columns">{lists}</div></details>\n'


def path_step(page, attempt, step):
    """A step of the longest path; what has no row of its own stands without a number."""
    if step.row is None:
        return f'<li class="rest">{linked(step.words, page)}</li>\n'
    name = html.escape(page.rows[step.row].name)
    took = attempt.marks[step.mark] if step.mark is not None else None
    size = f" {ms(took.end - took.begin)}" if took and page.unit is Unit.TIME else ""
    return (f'<li><span data-row="{step.row}"><button type="button" class="go">{name}</button></span>{size}'
            f"{'; ' + linked(step.words, page) if step.words else ''}</li>\n")


def phases_part(page, attempt):
    """The phases as they were measured, and as the rules give them."""
    if not attempt.phases:
        return ""
    head = "".join(f"<th>{words}</th>" for words in ("phase", "measured", "by the rules", "difference"))
    body = "".join(f"<tr><td>{html.escape(row[0])}</td>{''.join(f'<td class=n>{html.escape(cell)}</td>' for cell in row[1:])}</tr>\n" for row in attempt.phases)
    note = f"<p>{html.escape(attempt.phases_note)}</p>\n" if attempt.phases_note else ""
    return f"<h3>Phases</h3>\n<table><tr>{head}</tr>\n{body}</table>\n{note}"


def attempt_part(page, place, attempt, is_open):
    """An attempt: what came out, why, its stages, its chart, and what was slow."""
    name = f"attempt-{attempt.number}" if attempt.number is not None else f"lines-{attempt.first}"
    head = f"Attempt {html.escape(attempt.number)}" if attempt.number is not None else "Outside of attempts"
    sign = SIGNS[attempt.tone] + " " if attempt.number is not None else ""
    answer = f': <span class="answer">{sign}{linked(attempt.answer, page)}</span>' if attempt.answer else ""
    helps = "<h3>What would help</h3>\n" + items(attempt.helps, page, "helps") if attempt.helps else ""
    return (f'<details class="attempt {attempt.tone.value}" id="{name}"{" open" if is_open else ""}>\n'
            f"<summary><b>{head}</b>{answer} <small>lines {attempt.first} to {attempt.last}</small></summary>\n"
            + items(attempt.causes, page, "causes") + items(attempt.notes, page, "notes") + strip(page, attempt)
            + f'<div class="chart" data-attempt="{place}"></div>\n'
            + helps + slowest_table(page, attempt) + phases_part(page, attempt) + path_part(page, attempt) + "</details>\n")


def table_part(table, page):
    head = "".join(f"<th>{html.escape(words)}</th>" for words in table.heads)
    body = "".join(f"<tr>{''.join(f'<td>{linked(cell, page)}</td>' for cell in row)}</tr>\n" for row in table.rows)
    return f'<h2>{html.escape(table.title)}</h2>\n<div class="scroll"><table><tr>{head}</tr>\n{body}</table></div>\n'


def text_part(title, key, letter, lines):
    """A text that is folded until one opens it, or goes to one of its lines."""
    if not lines:
        return ""
    return (f'<details class="text" id="{key}" data-text="{key}" data-letter="{letter}"><summary><b>{html.escape(title)}</b> '
            f"<small>{len(lines)} lines</small></summary><pre></pre></details>\n")


def legend(page):
    """What colours and marks mean, of those that the page has."""
    kinds = {mark.kind for attempt in page.attempts for mark in attempt.marks}
    shown = [(kind, words) for kind, words in LEGEND if kinds & {kind.removeprefix("k-"), *OTHER_KINDS.get(kind, ())}]
    shown += [(kind, words) for kind, words in LEGEND_PATH if any(attempt.path for attempt in page.attempts)]
    shown += [(kind, words) for kind, words in LEGEND_ERROR if any(mark.answer for attempt in page.attempts for mark in attempt.marks)]
    pieces = "".join(f'<span><i class="mark {kind}"></i>{words}</span>' for kind, words in shown)
    return f'<div class="legend" id="legend">{pieces}</div>\n'


# ---- data


def columns_of(marks, base, texts):
    """The marks in columns of numbers; times from the begin of the attempt."""
    found = {
        "row": [mark.row for mark in marks], "kind": [texts.number(mark.kind) for mark in marks],
        "begin": [mark.begin - base for mark in marks], "size": [max(0, mark.end - mark.begin) for mark in marks],
        "first": [mark.first for mark in marks], "more": [mark.last - mark.first for mark in marks],
        "words": [texts.number(mark.words) for mark in marks], "answer": [texts.number(mark.answer) for mark in marks],
        "who": [texts.number(mark.who) for mark in marks],
        "flags": [mark.is_callback + 2 * mark.is_open + 4 * mark.is_span for mark in marks],
    }
    return {name: column(numbers) for name, numbers in found.items()}


def ties_of(ties, base, texts):
    """The ties in columns of numbers."""
    found = {
        "kind": [texts.number(tie.kind) for tie in ties], "source": [tie.source for tie in ties], "sourceAt": [tie.source_at - base for tie in ties],
        "target": [tie.target for tie in ties], "targetAt": [tie.target_at - base for tie in ties],
        "words": [texts.number(tie.words) for tie in ties], "last": [tie.last for tie in ties],
    }
    return {name: column(numbers) for name, numbers in found.items()}


def attempt_data(page, attempt, texts):
    """An attempt for the script. Lines keep their numbers; times begin with the attempt."""
    base = attempt.begin if page.unit is Unit.TIME else 0
    return {
        "begin": attempt.begin - base, "end": attempt.end - base, "noWaits": texts.number(attempt.no_waits),
        "gaps": [[gap.begin - base, gap.end - base, texts.number(gap.words)] for gap in attempt.gaps],
        "stages": [[texts.number(stage.name), texts.number(stage.kind), stage.begin - base, stage.end - base, stage.first, stage.last,
                    texts.number(stage.answer)] for stage in attempt.stages],
        "marks": columns_of(attempt.marks, base, texts),
        "ties": ties_of(attempt.ties, base, texts),
        "path": [[-1 if step.mark is None else step.mark, texts.number(step.phase), texts.number(step.words), -1 if step.row is None else step.row]
                 for step in attempt.path],
        "groups": [[texts.number(group.title), group.rows, int(group.is_folded), texts.number(group.tone), int(group.is_tree)] for group in groups_of(page, attempt)],
    }


def data_of(page):
    """All that the script draws."""
    texts, depths = Texts(), depths_of(page.rows)
    rows = [[texts.number(row.sort.value), row.name, texts.number(row.about), -1 if row.parent is None else row.parent, depths[place],
             [texts.number(note) for note in row.notes]] for place, row in enumerate(page.rows)]
    attempts = [attempt_data(page, attempt, texts) for attempt in page.attempts]
    return {"unit": page.unit.value, "linesOf": page.lines_of, "rows": rows, "attempts": attempts, "texts": packed(texts.all),
            "log": packed(page.lines), "judged": packed(page.judged), "dmesg": packed(page.dmesg)}


def opened(page):
    """The attempts that stand open: those that failed, and one that did not where it is alone; at most some of many."""
    failed = [attempt for attempt in page.attempts if attempt.number is not None and attempt.tone is not Tone.GOOD][:3]
    return failed or [attempt for attempt in page.attempts if attempt.number is not None][:1] or page.attempts[:1]


def page_html(page):
    """The page as HTML."""
    shown = opened(page)
    title = html.escape(page.title)
    head = (f'<!DOCTYPE html>\n<html lang="en"><head><meta charset="utf-8">\n<meta http-equiv="Content-Security-Policy" content="{POLICY}">\n'
            f'<meta name="viewport" content="width=device-width, initial-scale=1">\n<title>{title}</title>\n'
            f"<style>\n{(HERE / 'page.css').read_text()}</style></head>\n<body>\n<h1>{title}</h1>\n")
    known = SIGNS[Tone.PLAIN].join(f" {html.escape(words)} " for words in page.about)
    about = f'<p class="about">{known}</p>\n' if known else ""
    bar = ('<div class="bar"><label>search <input id="search" type="search" autocomplete="off" placeholder="device or driver"></label>'
           '<output id="count" aria-live="polite"></output><small><kbd>/</kbd> search <kbd>\u2191</kbd> <kbd>\u2193</kbd> device '
           '<kbd>Enter</kbd> whom it waited for <kbd>+</kbd> <kbd>\u2212</kbd> <kbd>\u2190</kbd> <kbd>\u2192</kbd> <kbd>0</kbd> zoom '
           '<kbd>Esc</kbd> close</small></div>\n<noscript><p><b>The charts and the log are drawn by a script, which is switched off here.</b></p></noscript>\n')
    parts = [head, about, verdict_part(page), bar if page.attempts else "", legend(page) if page.attempts else ""]
    parts += [attempt_part(page, place, attempt, attempt in shown) for place, attempt in enumerate(page.attempts)]
    parts += [table_part(table, page) for table in page.more]
    parts.append(text_part(f"The {page.lines_of}", "log", "L", page.lines))
    parts.append(text_part("The kernel's messages (dmesg)", "dmesg", "D", page.dmesg))
    parts.append(text_part("The log that was judged", "judged", "G", page.judged))
    parts.append('<aside class="panel" id="panel" aria-live="polite" aria-label="the chosen row" hidden></aside><div class="tip" id="tip" hidden></div>\n')
    parts.append(f'<script type="application/json" id="data">{script_json(data_of(page))}</script>\n')
    parts.append(f"<script>\n{(HERE / 'page.js').read_text()}</script>\n</body></html>\n")
    return "".join(parts)
