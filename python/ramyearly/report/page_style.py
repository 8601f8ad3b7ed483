"""The look of a report on a screen, on a phone and in print."""

STYLE = """
:root { color-scheme: light; --ink: #1b2631; --muted: #4a5866; --line: #cdd5dd; --soft: #f3f6f8; --strong: #1f4e79;
  --alarm: #8c1d18; }
* { box-sizing: border-box; }
html { -webkit-text-size-adjust: 100%; text-size-adjust: 100%; }
body { margin: 0; background: #fff; color: var(--ink);
  font: 1rem/1.5 system-ui, -apple-system, "Segoe UI", Roboto, "Helvetica Neue", Arial, sans-serif; }
main { max-width: calc(1160px + 2rem); margin: 0 auto; padding: 1.75rem 1rem 3rem; }
h1, h2 { line-height: 1.2; overflow-wrap: anywhere; }
h1 { font-size: 1.9rem; font-weight: 650; margin: 0.1rem 0 1rem; }
h2 { font-size: 1.25rem; font-weight: 650; margin: 2.5rem 0 0.6rem; }
p { max-width: 46rem; margin: 0 0 0.75rem; overflow-wrap: anywhere; }
a { color: var(--strong); }
.note { color: var(--muted); font-size: 0.9rem; }
.kind { margin: 0; }
.verdict { border-left: 0.35rem solid var(--strong); background: var(--soft); padding: 0.8rem 1rem; margin: 0 0 1.25rem;
  max-width: none; font-size: 1.1rem; }
.verdict b { display: inline-block; margin-right: 0.5rem; }
.verdict.alarm { border-left: 0.35rem double var(--alarm); }
.verdict.alarm b { color: var(--alarm); }
.facts { display: grid; grid-template-columns: repeat(4, minmax(0, 1fr)); gap: 0 1.5rem; margin: 0; }
.facts div { border-top: 1px solid var(--line); padding: 0.5rem 0; }
.facts dt { color: var(--muted); font-size: 0.85rem; }
.facts dd { margin: 0; overflow-wrap: anywhere; font-size: 1.15rem; font-weight: 600; font-variant-numeric: tabular-nums; }
.facts small { display: block; color: var(--muted); font-size: 0.85rem; font-weight: 400; }
nav { margin: 1rem 0 0; font-size: 0.95rem; }
nav a { display: inline-block; margin: 0 1.1rem 0 0; padding: 0.2rem 0; }
figure { margin: 0 0 1rem; }
figcaption { color: var(--muted); font-size: 0.9rem; max-width: 56rem; margin-top: 0.4rem; }
.scroll { overflow: auto; max-width: 100%; border: 1px solid var(--line); }
.scroll:focus-visible { outline: 3px solid var(--strong); outline-offset: 2px; }
.table { max-height: 30rem; width: fit-content; }
svg { display: block; width: 100%; min-width: 1040px; height: auto; }
table { border-collapse: collapse; font-size: 0.9rem; line-height: 1.35; }
caption { text-align: left; color: var(--muted); background: #fff; }
caption span { display: block; position: sticky; left: 0; width: fit-content; max-width: min(46rem, calc(100vw - 2.25rem));
  padding: 0.5rem 0.75rem; overflow-wrap: anywhere; }
th, td { padding: 0.3rem 0.75rem; text-align: right; vertical-align: baseline; white-space: nowrap;
  border-top: 1px solid var(--line); font-variant-numeric: tabular-nums; }
th { font-weight: 600; }
thead th { position: sticky; top: 0; background: var(--soft); box-shadow: inset 0 -1px var(--line); vertical-align: bottom;
  white-space: normal; }
.words { text-align: left; }
.long { white-space: normal; min-width: 12rem; overflow-wrap: anywhere; }
tr.marked th, tr.marked td { font-weight: 700; background: #f7e9e8; border-top: 2px solid var(--alarm);
  border-bottom: 2px solid var(--alarm); }
details summary { cursor: pointer; padding: 0.4rem 0; }
dl.terms { columns: 24rem 2; column-gap: 2.5rem; margin: 0; font-size: 0.95rem; }
dl.terms div { break-inside: avoid; }
dl.terms dt { font-weight: 600; }
dl.terms dd { margin: 0 0 0.5rem; color: var(--muted); }
@media (max-width: 40rem) {
  main { padding-top: 1rem; }
  h1 { font-size: 1.5rem; }
  .facts { grid-template-columns: repeat(2, minmax(0, 1fr)); }
  .facts div:first-child { grid-column: span 2; }
  th, td { padding: 0.3rem 0.5rem; }
}
@media print {
  @page { size: A4 landscape; margin: 12mm; }
  body { font-size: 9.5pt; line-height: 1.35; }
  main { max-width: none; padding: 0; }
  nav { display: none; }
  h1 { font-size: 17pt; margin-bottom: 0.5rem; }
  h2 { font-size: 12pt; margin: 1rem 0 0.4rem; }
  h1, h2, summary { break-after: avoid; }
  figure, tr, .short, .verdict, .facts, dl.terms { break-inside: avoid; }
  .verdict { font-size: 11pt; padding: 0.4rem 0.8rem; margin-bottom: 0.6rem; }
  .facts { grid-template-columns: repeat(8, auto); gap: 0 1rem; }
  .facts dd { font-size: 10pt; overflow-wrap: normal; }
  .facts dt, .facts small, figcaption, .note { font-size: 8.5pt; }
  p, figcaption { max-width: none; }
  .scroll { overflow: visible; max-height: none; border: 0; }
  svg { min-width: 0; }
  table { font-size: 8.5pt; }
  caption span { position: static; max-width: none; padding: 0.2rem 0.4rem; }
  th, td { padding: 0.12rem 0.4rem; }
  .long { min-width: 6rem; }
  thead { display: table-header-group; }
  thead th { position: static; }
  .verdict, tr.marked td, tr.marked th { background: none; }
  details::details-content { display: block; content-visibility: visible; height: auto; }
  details .table { columns: 3; width: auto; }
  dl.terms { font-size: 8.5pt; }
}
"""
