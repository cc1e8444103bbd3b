"""The style of a batch's index, besides the shared style."""

CSS = """
table{width:100%}td{overflow-wrap:anywhere}th{white-space:nowrap}
td.number{text-align:right;white-space:nowrap}td.name{min-width:16ch;font-weight:600}
td.links{min-width:22ch}td.said{min-width:34ch}td.rules{min-width:12ch}
.word{font-weight:700}.good .word,.word.good{color:var(--good)}
.warn .word,.word.warn{color:var(--warn)}.bad .word,.word.bad{color:var(--bad)}
tr.good,tr.warn,tr.bad{color:var(--ink)}
tr.good>td.said{border-left:6px solid var(--good)}tr.warn>td.said{border-left:6px solid var(--warn)}
tr.bad>td.said{border-left:6px solid var(--bad);background:var(--bad-ground)}
td.said a{display:inline-block;font-weight:600}td.links a{margin-right:10px;display:inline-block}
.remark{border-left:6px solid var(--warn);background:var(--warn-ground);padding:6px 10px;
  color:var(--ink)}
.remark.bad{border-color:var(--bad);background:var(--bad-ground)}
.tools{display:flex;flex-wrap:wrap;gap:8px 14px;align-items:center;margin:10px 0}
.tools[hidden]{display:none}.tools label{display:flex;gap:6px;align-items:center}
input,select,button{font:inherit;color:inherit;background:var(--ground);
  border:1px solid var(--quiet);border-radius:4px;padding:4px 6px;max-width:100%}
th button{border:0;padding:0;background:none;font-weight:700;text-align:left;cursor:pointer}
th button::after{content:" \\2195"}th[aria-sort=ascending] button::after{content:" \\2191"}
th[aria-sort=descending] button::after{content:" \\2193"}
:focus-visible{outline:3px solid var(--focus);outline-offset:1px}
@media (max-width:800px){table,tbody,thead{display:block}
  tr{display:block;border:1px solid var(--edge);margin:0 0 10px}tr[hidden]{display:none}
  td{display:block;border:0;text-align:left}td.number{display:inline-block}
  td.said,td.name,td.rules,td.links{min-width:0}
  td[data-label]::before{content:attr(data-label) ": ";color:var(--quiet)}
  thead tr{display:flex;flex-wrap:wrap;border:0}thead th{border:0;background:none}
  thead.plain{display:none}.tools label{max-width:100%}.tools input{min-width:0}}
@page{size:A4 landscape}
@media print{.tools{display:none}th button::after{content:""}thead{display:table-header-group}}
"""
