"""The style of pages: wide screen, phone, dark mode and paper. Nothing is fetched from elsewhere."""

from __future__ import annotations

from irvtools.html.markup import text
from irvtools.trackplan.signs import PLAN_CSS

VIEWPORT = '<meta name="viewport" content="width=device-width, initial-scale=1">'

CSS = PLAN_CSS + """
body{font:14px/1.45 system-ui,"DejaVu Sans",sans-serif;margin:24px auto;padding:0 20px;
  max-width:1500px;color:var(--ink);background:var(--ground)}
h1{font-size:24px;margin:0 0 4px;overflow-wrap:anywhere}
h2{font-size:19px;margin:34px 0 8px;border-bottom:2px solid var(--edge);overflow-wrap:anywhere}
h3{font-size:15px;margin:22px 0 4px}p{margin:6px 0;max-width:110ch;overflow-wrap:break-word}
code,pre,.line{font:13px/1.4 ui-monospace,"DejaVu Sans Mono",monospace;overflow-wrap:anywhere}
pre{background:var(--soft);padding:8px 10px;white-space:pre-wrap;margin:6px 0}
a{color:var(--focus)}
table{border-collapse:collapse;margin:8px 0}td,th{border:1px solid var(--edge);padding:3px 7px;
  text-align:left;vertical-align:top;font-size:12.5px;overflow-wrap:break-word}th{background:var(--soft)}
ul{margin:8px 0;padding-left:20px}.wide,.scroll{overflow-x:auto;max-width:100%}
.verdict{font-size:16px;line-height:1.4;border-left:8px solid;padding:8px 14px;margin:10px 0;max-width:none}
.verdict b{font-size:19px;display:block}.verdict a{display:inline-block;margin-top:4px;font-weight:600}
.verdict.good{background:var(--good-ground);border-color:var(--good)}.verdict.good b{color:var(--good)}
.verdict.warn{background:var(--warn-ground);border-color:var(--warn)}.verdict.warn b{color:var(--warn)}
.verdict.bad{background:var(--bad-ground);border-color:var(--bad)}.verdict.bad b{color:var(--bad)}
.verdict a{color:inherit}
.toc{margin:8px 0;font-size:13px}.toc a{margin-right:14px;white-space:nowrap;display:inline-block;padding:3px 0}
.answer{background:var(--answer);border-left:4px solid var(--focus);padding:2px 8px;margin:6px 0;
  display:block;width:fit-content;max-width:100%;box-sizing:border-box}
.own{background:var(--own);border-left:4px solid var(--warn);padding:2px 8px;margin:6px 0}
.advice{border-left:2px dashed var(--free);padding:1px 8px;margin:7px 0}
.note{font-weight:600;border-top:2px solid var(--ink);padding:3px 0;margin:10px 0 3px}
.good{color:var(--good)}.bad{color:var(--bad)}.open-end{color:var(--warn)}
.verdict.good,.verdict.warn,.verdict.bad{color:var(--ink)}
.frame,.broken{border-top:1px solid var(--edge);padding:4px 0 6px;break-inside:avoid;min-width:0}
.frame p,.broken p{margin:3px 0}.what{font-weight:600}.small{font-size:12.5px;color:var(--quiet)}
.frame:target{outline:3px solid var(--focus)}
.last{border:2px solid var(--bad);border-radius:4px;padding:2px 10px;margin:6px 0}
.foot{margin-top:40px;border-top:2px solid var(--edge);padding-top:8px}
details{margin:2px 0}summary{cursor:pointer;padding:2px 0}
.frames{display:grid;gap:2px 18px;grid-template-columns:minmax(0,1fr);margin:4px 0}
.frames>p{grid-column:1/-1}.step{min-width:0}.minor{border:0;padding:1px 0}.minor .what{font-weight:400}
.f2{grid-template-columns:repeat(2,minmax(0,1fr))}.f3{grid-template-columns:repeat(3,minmax(0,1fr))}
table.routes td:last-child{min-width:15ch}
.sheet th,.sheet td{border-color:var(--free)}.sheet td{min-width:12ch;overflow-wrap:anywhere}
.whole{white-space:nowrap}
.sheet thead{display:table-header-group}.sheet tr{break-inside:avoid}
@media (min-width:701px){table.calls td:first-child,table.sums td:last-child{min-width:36ch}}
@media (max-width:1100px){.f3{grid-template-columns:repeat(2,minmax(0,1fr))}}
@media (max-width:700px){body{padding:0 12px;margin:12px auto}.f2,.f3{grid-template-columns:minmax(0,1fr)}
  .box svg.plan{max-width:none}.last .box svg.plan{max-width:100%}h1{font-size:20px}h2{font-size:17px}
  table{display:block;overflow-x:auto;max-width:100%}}
@page{size:A4;margin:11mm}@page wide{size:A4 landscape}
@media print{body{margin:0;padding:0;max-width:none;font-size:9.5pt;line-height:1.3}
.toc,.steps{display:none}.verdict{font-size:11pt}.verdict b{font-size:13pt}
h1{font-size:15pt}h2{font-size:12.5pt;margin:14px 0 5px}h3{margin:10px 0 3px}
h1,h2,h3,.lead{break-after:avoid}h2,h3{break-inside:avoid}
td,th,.small,code,pre,.line{font-size:7.5pt;line-height:1.25}td,th{padding:1px 4px}tr{break-inside:avoid}
.f3,.f2{grid-template-columns:repeat(2,minmax(0,1fr))}.frames{display:block}
.f3>.step,.f2>.step{display:inline-block;width:calc(50% - 10px);margin-right:6px;vertical-align:top}
.frame,.broken{padding:2px 0 3px}.frame p,.broken p,.advice p{margin:1px 0}.advice{margin:3px 0}
.f1 svg.plan,.f2 svg.plan,.broken svg.plan,.last svg.plan{max-width:70%;max-height:62mm}
.own,.answer,.verdict,.last{break-inside:avoid}.foot{margin-top:12px}
.wide{page:wide;overflow:visible}pre.run{columns:4}
.minor,.paperless{border:0;padding:0}.minor svg.plan,.minor .small,.paperless svg.plan,.paperless .small{display:none}}
"""


def document(title: str, body: str, more_style: str = "") -> str:
    """Returns a page as a document in this style."""
    return (f"<!doctype html>\n<html lang=\"en\"><head><meta charset=\"utf-8\">{VIEWPORT}"
            f"<title>{text(title)}</title><style>{CSS}{more_style}</style></head><body>\n{body}\n"
            "</body></html>\n")
