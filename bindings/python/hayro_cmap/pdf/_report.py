"""An HTML page about the fonts of PDF files, with their faults and a chart of the codes of each font."""

import contextlib
import errno
import html
import json
from typing import Any, Dict, Iterable, Iterator, List, Tuple

from .._escaped import escaped
from ._beside import try_beside, written_beside
from ._check import FontReport, Report, share
from ._fonts import Source
from ._paths import is_among, opened, readable, reason_of

#: The beginning of each page, which distinguishes it from other files.
BEGINNING = """<!DOCTYPE html>
<html lang="en">
<meta name="generator" content="hayro_cmap.pdf check --html">
"""

#: The maximum number of codes in a chart that have a text and aren't shown.
MOST_UNSHOWN = 1 << 16

#: The kinds of codes in the page: the sources of their texts, and codes that aren't shown.
KINDS = [source.value for source in Source]
UNSHOWN = len(KINDS)

#: The legend for each kind, and its colour. People with red-green colour blindness can tell these colours apart.
LEGEND = [
    ("text by ToUnicode", "#0072b2"),
    ("the code is the character", "#56b4e9"),
    ("text by the collection", "#009e73"),
    ("text by the glyph name", "#e69f00"),
    ("text by the font program", "#cc79a7"),
    ("a guess by the number of the glyph", "#f0e442"),
    ("text by ActualText alone", "#999999"),
    ("shown without a text", "#d5301a"),
    ("has a text, isn't shown", "#b9cfe4"),
]

#: A cell of a chart: the code, its length in bytes, its kind, its CID, its text, and how often it is shown.
Cell = Tuple[int, int, int, Any, Any, int]


def charts_of(report: Report) -> List[Dict[str, Any]]:
    """The lines and the chart of each font of a file."""
    return [{"lines": list(font.lines()), "ok": not font.font.faults, "cells": cells_of(font)} for font in report.fonts]


def cells_of(report: FontReport) -> List[Cell]:
    """The cells of the chart of a font: the shown codes, and the codes to which its ToUnicode CMap gives a text."""
    cells: Dict[Tuple[int, int], Cell] = {}
    for (_, shown, text, source), times in report.codes:
        # the text in marked content counts only if the code isn't shown elsewhere
        if source is not Source.ACTUAL_TEXT or shown[:2] not in cells:
            cells[shown[:2]] = (shown.code, shown.byte_len, KINDS.index(source.value), shown.cid, text, times)
    to_unicode = report.font.to_unicode.lenient
    encoding = report.font.encoding.lenient
    ranges = None if encoding is None else [it for layer in encoding.layers for it in layer.codespaces]
    left = MOST_UNSHOWN
    for run in [] if to_unicode is None else to_unicode._text_runs(ranges):
        if left == 0:
            break
        byte_len = run.byte_len if report.font.is_composite else 1
        for code in range(run.first, min(run.last, run.first + left - 1) + 1):
            left -= 1
            if (code, byte_len) not in cells:
                cid = None if encoding is None else encoding.cid(code, byte_len)
                text = run.text[:-1] + chr(ord(run.text[-1]) + code - run.first)
                cells[code, byte_len] = (code, byte_len, UNSHOWN, cid, text, 0)
    return sorted(cells.values(), key=lambda cell: (cell[1], cell[0]))


def try_report(path: str, inputs: Iterable[str]) -> None:
    """Raises OSError if a page can't be written to a path, or would replace another file than an older page or an empty
    file, in particular an input, also through a link."""
    with saying_where(path):
        try_beside(path)
    if is_among(path, inputs):
        raise OSError(errno.EEXIST, "it is a file to check, which the report doesn't replace", path)
    refuse_others(path)


def refuse_others(path: str) -> None:
    """Raises OSError if the file at a path is neither an older page nor empty."""
    try:
        with opened(path) as file:
            found = file.read(len(BEGINNING.encode()))
    except FileNotFoundError:
        return
    if found not in (b"", BEGINNING.encode()):
        raise OSError(errno.EEXIST, "it isn't a report of this command, so it isn't replaced", path)


def write_report(path: str, results: Iterable[Any]) -> None:
    """Writes the page with the results of a check, and then renames it into place. Raises OSError like `try_report`."""
    page = page_of(list(results)).encode("utf-8", "backslashreplace")
    refuse_others(path)
    with saying_where(path), written_beside(path) as file:
        file.write(page)


@contextlib.contextmanager
def saying_where(path: str) -> Iterator[None]:
    """Raises an OSError about a file beside a path as an OSError about the path."""
    try:
        yield
    except OSError as fault:
        raise OSError(fault.errno, f"it can't be written: {reason_of(fault)}", path) from fault


def page_of(results: List[Any]) -> str:
    """The page with the results of a check. It loads no other files."""
    shown, with_text = sum(it.shown for it in results), sum(it.with_text for it in results)
    legend = "".join(f'<span><i style="background:{colour}"></i>{words}</span>' for words, colour in LEGEND)
    charts = [chart["cells"] for result in results for chart in result.charts]
    # no text of a file can end the script element with the data
    data = json.dumps(charts, separators=(",", ":")).replace("<", "\\u003c")
    return BEGINNING + TEMPLATE.format(
        summary=html.escape(f"{len(results)} file{'' if len(results) == 1 else 's'}; {share(with_text, shown)}"),
        legend=legend,
        files="".join(map(section_of, results)),
        data=data,
        colours=json.dumps([colour for _, colour in LEGEND]),
        words=json.dumps([words for words, _ in LEGEND]),
    )


def section_of(result: Any) -> str:
    """The part of the page for a file."""
    fault = "" if result.fault is None else f'<p class="bad">{visible(result.fault)}</p>'
    words = html.escape(share(result.with_text, result.shown)) if result.charts else ""
    fonts = "".join(map(font_of, result.charts))
    return f"<section><h2>{visible(readable(result.path))}</h2>{fault}<p>{words}</p>{fonts}</section>\n"


def font_of(chart: Dict[str, Any]) -> str:
    """The part of the page for a font."""
    title, *lines = map(visible, chart["lines"])
    # each line begins with the number of the font, which is in the title
    listed = "".join(f"<li>{line.partition(': ')[2]}</li>" for line in lines)
    bad, fine = "" if chart["ok"] else ' class="bad"', "" if lines else ' class="fine"'
    drawn = "<canvas></canvas>" if chart["cells"] else "<canvas hidden></canvas>"
    return f"<article{fine}><h3{bad}>{title}</h3><ul>{listed}</ul>{drawn}</article>\n"


def visible(text: str) -> str:
    """A text of a file in a safe form for the page."""
    return html.escape(escaped(text))


TEMPLATE = """<meta charset="utf-8">
<meta name="viewport" content="width=device-width">
<title>Fonts of PDF files</title>
<style>
body {{ font: 14px/1.4 system-ui, sans-serif; margin: 1.5em auto; max-width: 1120px; color: #222; background: #fff }}
h1 {{ font-size: 1.4em; margin: 0 }} h2 {{ font-size: 1.15em; border-top: 1px solid #bbb; padding-top: .8em }}
h3 {{ font-size: 1em; margin: 1em 0 .2em; overflow-wrap: anywhere }}
ul {{ margin: 0 0 .4em; padding-left: 1.2em; overflow-wrap: anywhere }}
.bad {{ color: #a51d0a }} body:has(#wrong:checked) .fine {{ display: none }}
#legend {{ position: sticky; top: 0; background: #fff; padding: .5em 0; display: flex; gap: 1.2em; flex-wrap: wrap }}
#legend i {{ display: inline-block; width: 1em; height: 1em; margin-right: .4em; vertical-align: -.1em }}
canvas {{ display: block; cursor: crosshair }} canvas[hidden] {{ display: none }}
@media print {{
  body {{ margin: 0; max-width: none; print-color-adjust: exact; -webkit-print-color-adjust: exact }}
  canvas {{ width: 100% !important; height: auto !important }}
  article {{ break-inside: avoid-page }} h2, h3 {{ break-after: avoid-page }}
  #legend {{ position: static }} #legend label {{ display: none }}
}}
#tip {{ position: fixed; pointer-events: none; background: #222; color: #fff; padding: .3em .6em; border-radius: .3em;
  max-width: 30em; white-space: pre-line; display: none }}
</style>
<h1>Fonts of PDF files</h1>
<p>{summary}. A chart has 256 codes a row; the digits before it are the first bytes of the codes.</p>
<div id="legend">{legend}<label><input type="checkbox" id="wrong"> only fonts with findings</label></div>
{files}
<div id="tip"></div>
<script id="data" type="application/json">{data}</script>
<script>
"use strict";
const COLOURS = {colours}, WORDS = {words}, WIDTH = 4, LEFT = 64;
const charts = JSON.parse(document.getElementById("data").textContent);
const tip = document.getElementById("tip");
const hex = (code, length) => code.toString(16).toUpperCase().padStart(2 * length, "0");

function rowsOf(cells) {{
  const rows = new Map();
  for (const cell of cells) {{
    const key = cell[1] + ":" + Math.floor(cell[0] / 256);
    if (!rows.has(key)) rows.set(key, {{ label: hex(cell[0], cell[1]).slice(0, -2), cells: new Array(256) }});
    rows.get(key).cells[cell[0] % 256] = cell;
  }}
  return [...rows.values()];
}}

function draw(canvas, cells) {{
  const rows = rowsOf(cells), height = rows.length <= 8 ? 20 : rows.length <= 64 ? 12 : 6;
  const scale = window.devicePixelRatio || 1, width = LEFT + 256 * WIDTH;
  canvas.width = width * scale; canvas.height = rows.length * height * scale;
  canvas.style.width = width + "px"; canvas.style.height = rows.length * height + "px";
  const context = canvas.getContext("2d");
  context.scale(scale, scale);
  context.font = "10px monospace"; context.textBaseline = "middle";
  rows.forEach((row, index) => {{
    const top = index * height;
    context.fillStyle = index % 2 ? "#f1f1f1" : "#e8e8e8";
    context.fillRect(LEFT, top, 256 * WIDTH, height);
    context.fillStyle = "#555";
    if (height >= 12 || index % 2 === 0) context.fillText(row.label, 4, top + height / 2);
    row.cells.forEach((cell, column) => {{
      context.fillStyle = COLOURS[cell[2]];
      context.fillRect(LEFT + column * WIDTH, top, WIDTH - 0.5, height - 1);
    }});
  }});
  canvas.onmousemove = event => point(event, rows, height);
  canvas.onmouseleave = () => {{ tip.style.display = "none"; }};
}}

function wordsOf(cell) {{
  const [code, length, kind, cid, text, count] = cell;
  const number = it => hex(it.codePointAt(0), 2), harmful = /[\\p{{C}}\\p{{Zl}}\\p{{Zp}}]/gu;
  const numbers = text === null ? "" : [...text].map(it => "U+" + number(it)).join(" ");
  const lines = ["<" + hex(code, length) + ">" + (cid === null ? "" : "  CID " + cid)];
  if (text !== null) lines.push(text.replace(harmful, it => "\\\\u{{" + number(it) + "}}") + "  " + numbers);
  lines.push(WORDS[kind]);
  if (count) lines.push("shown " + count + (count === 1 ? " time" : " times"));
  return lines.join("\\n");
}}

function point(event, rows, height) {{
  const row = rows[Math.floor(event.offsetY / height)];
  const cell = row && row.cells[Math.floor((event.offsetX - LEFT) / WIDTH)];
  tip.style.display = cell ? "block" : "none";
  if (!cell) return;
  tip.textContent = wordsOf(cell);
  tip.style.left = Math.min(event.clientX + 14, window.innerWidth - tip.offsetWidth - 8) + "px";
  tip.style.top = event.clientY + 18 + "px";
}}

const canvases = [...document.querySelectorAll("canvas")], left = new Set(canvases);
function drawOnce(canvas) {{
  if (!left.delete(canvas)) return;
  seen.unobserve(canvas);
  draw(canvas, charts[canvases.indexOf(canvas)]);
}}

// a chart is drawn when it comes near, and all charts are drawn before the page is printed
const seen = new IntersectionObserver(entries => {{
  for (const entry of entries) if (entry.isIntersecting) drawOnce(entry.target);
}}, {{ rootMargin: "400px" }});
canvases.forEach(canvas => seen.observe(canvas));
window.addEventListener("beforeprint", () => canvases.forEach(drawOnce));
</script>
</html>
"""
