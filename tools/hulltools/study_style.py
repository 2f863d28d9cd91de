"""Style and scripts of the page of a study."""

COLOURS = (
    "blue",
    "soft",
    "orange",
    "violet",
    "red",
    "green",
)  # of the lists, in order; further ones begin anew, with dashes

STYLE = (
    "".join(
        f"polyline.l{i} {{ stroke: var(--{colour}); }} i.l{i} {{ border-color: var(--{colour}); }}"
        for i, colour in enumerate(COLOURS)
    )
    + """
polyline { stroke-width: 1.6; vector-effect: non-scaling-stroke; } polyline.dashed { stroke-dasharray: 6 4; } i.dashed { border-top-style: dashed; }
.said { font-size: 1.05rem; } .note { border-left: 3px solid var(--red); padding-left: .6rem; color: var(--text); }
.list { display: grid; grid-template: 'name bar sum' / minmax(7rem, 14rem) 1fr 8rem; gap: .1rem .8rem; align-items: center; margin: .6rem 0; font-size: .9rem; overflow-wrap: normal; }
.list span { grid-area: name; } .list .stack { grid-area: bar; } .list span.sum { grid-area: sum; text-align: right; font-variant-numeric: tabular-nums; }
.stack { display: flex; height: 1.1rem; background: color-mix(in srgb, var(--grid) 45%, transparent); } .stack b { height: 100%; }
.blue, i.box.blue { background: var(--blue); } .orange, i.box.orange { background: var(--orange); }
.green, i.box.green { background: var(--green); } .violet, i.box.violet { background: var(--violet); }
h3 { font-size: 1rem; margin: 1rem 0 .25rem; }
@media (max-width: 40rem) { .list { grid-template: 'name sum' 'bar bar' / 1fr auto; } th, td { padding: .25rem .3rem; } }
.key { display: inline-block; margin-right: .8rem; } table .name { position: sticky; left: 0; background: var(--back); white-space: normal; min-width: 6rem; }
th { vertical-align: bottom; white-space: normal; } th button { text-align: inherit; } td.name bdi { white-space: nowrap; }
details { margin: .5rem 0; } summary { cursor: pointer; font-weight: 600; }
select { font: inherit; color: inherit; background: var(--back); border: 1px solid var(--grid); padding: .15rem .4rem; }
.files a { display: inline-block; margin: 0 1rem .3rem 0; color: var(--blue); }
dl.origin { display: block; font-size: .9rem; } dl.origin dd { font-weight: 400; margin-bottom: .4rem; }
#unit { position: static; }
"""
)

UNIT_LISTS = """
const chosen = document.querySelector("#chosen");
let shownRow = null;
const unitOf = row => {
  const unit = lists[row.dataset.unit];
  return unit && { ...unit.schedule, ...unit.responses[chosen.value] };
};
function showRow(row) { shownRow = row; draw(row, unitOf(row)); }
chosen.addEventListener("change", () => { if (shownRow) showRow(shownRow); });
watchRows(showRow);
const firstRow = document.querySelector("tr[data-unit]");
if (firstRow) showRow(firstRow);
"""
