//! How the page looks, on a screen and on paper, in colour and in grey.

/// Tones alternate between dark and light, so that neighbours stay apart in grey; `own` is hatched.
pub const STYLE: &str = "\
:root { color-scheme: light; }
* { box-sizing: border-box; }
body { margin: 0 auto; padding: 32px 24px; max-width: 948px; background: #fff; color: #1b1f24;
  font: 15px/1.45 -apple-system, \"Segoe UI\", Roboto, \"Helvetica Neue\", Arial, sans-serif;
  -webkit-print-color-adjust: exact; print-color-adjust: exact; }
h1 { margin: 0; font-size: 26px; line-height: 1.2; overflow-wrap: anywhere; }
h2 { margin: 0 0 4px; font-size: 18px; line-height: 1.3; }
p { margin: 0 0 12px; }
header p { margin: 4px 0 0; color: #4a525b; overflow-wrap: anywhere; }
section { margin-top: 26px; padding-top: 14px; border-top: 1px solid #c3c9d0; }
dl { display: grid; grid-template-columns: repeat(4, minmax(0, auto)); gap: 24px; margin: 18px 0 0; }
dt { color: #4a525b; font-size: 13px; }
dd { margin: 0; font-size: 22px; font-weight: 600; line-height: 1.25; overflow-wrap: anywhere; }
dd small { display: block; color: #4a525b; font-size: 13px; font-weight: 400; }
.drawing { display: block; width: 100%; height: auto; }
text { font-size: 12px; fill: #1b1f24; }
.end { text-anchor: end; }
.middle { text-anchor: middle; }
.strong { font-weight: 600; }
.small { font-size: 11px; }
.on-gate { fill: #fff; }
.on-own { paint-order: stroke; stroke: #fff; stroke-width: 6px; stroke-linejoin: round; }
.grid { stroke: #dde1e6; stroke-width: 1; }
.axis { stroke: #1b1f24; stroke-width: 1; }
.leader { stroke: #8a929b; stroke-width: 0.8; }
.gate, .after { fill: #24466b; }
.cell { fill: #a9c7e4; stroke: #24466b; stroke-width: 0.8; }
.before { fill: #d8dde3; stroke: #5c6670; stroke-width: 0.8; }
.free { fill: #fff; stroke: #5c6670; stroke-width: 1; }
.own { fill: url(#hatch); }
.track { fill: #edf0f3; }
.most { fill: #24466b; }
.less { fill: #6f94ba; }
.tone0 { fill: #1f4e79; }
.tone1 { fill: #e6ad3f; }
.tone2 { fill: #2f5d3a; }
.tone3 { fill: #86b6e0; }
.tone4 { fill: #7a3b1d; }
.tone5 { fill: #97c997; }
.legend { display: flex; flex-wrap: wrap; gap: 4px 24px; margin: 6px 0 0; color: #333a42;
  font-size: 13px; }
.swatch { vertical-align: -1px; margin-right: 2px; }
table { border-collapse: collapse; font-size: 13px; font-variant-numeric: tabular-nums; }
th, td { padding: 3px 0 3px 14px; text-align: right; vertical-align: top; white-space: nowrap; }
th:first-child, td:first-child { padding-left: 4px; }
th:last-child, td:last-child { padding-right: 4px; }
th { font-weight: 600; vertical-align: bottom; }
thead th { border-bottom: 1px solid #1b1f24; }
tbody tr { border-bottom: 1px solid #e6e9ed; }
.totals { margin-top: 12px; }
.totals th:first-child { text-align: left; }
.totals th, .totals td { padding-left: 28px; }
.totals th:first-child, .totals td:first-child { padding-left: 4px; }
.totals tbody tr:last-child { font-weight: 600; }
.lines { width: 100%; }
th small { font-size: 11px; font-weight: 400; }
.lines .rule { width: 100%; text-align: left; white-space: normal; overflow-wrap: anywhere; }
.lines .bar { padding-left: 8px; }
.lines .bar svg { vertical-align: -1px; }
code { font: 11.5px/1.4 ui-monospace, Consolas, Menlo, \"Liberation Mono\", monospace; }
.sum { font-weight: 600; background: #f1f3f6; }
.dearest { background: #fdf3d8; box-shadow: inset 4px 0 #b97a00; }
.tag { margin-left: 6px; padding: 0 6px; border: 1px solid #8a5a00; border-radius: 3px;
  font-size: 11px; font-weight: 600; white-space: nowrap; }
@page { size: A4; margin: 14mm 12mm; }
@media print {
  body { max-width: none; padding: 0; font-size: 10pt; }
  h1 { font-size: 17pt; }
  h2 { font-size: 12.5pt; break-after: avoid; }
  section, tr, header { break-inside: avoid; }
  thead { display: table-header-group; }
  table, .legend, dt, dd small { font-size: 8.5pt; }
  th small, .tag { font-size: 7.5pt; }
  code { font-size: 7.2pt; }
}
";

/// What fills refer to by name.
pub const PATTERNS: &str = "\
<svg width=\"0\" height=\"0\" style=\"position:absolute\" aria-hidden=\"true\"><defs>
<pattern id=\"hatch\" width=\"4\" height=\"4\" patternUnits=\"userSpaceOnUse\" \
patternTransform=\"rotate(45)\"><rect width=\"4\" height=\"4\" fill=\"#d9d9d9\"/>\
<rect width=\"1.8\" height=\"4\" fill=\"#5f5f5f\"/></pattern>
</defs></svg>
";
