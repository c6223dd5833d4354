"""The looks of a page, beside those of the picture."""

STYLE = """
* { box-sizing: border-box; }
[hidden] { display: none !important; }
body { margin: 0; font: 14px system-ui, sans-serif; color: #222; background: #fff; color-scheme: light; }
header { padding: 10px 12px 4px; }
h1, h2 { margin: 0; font-size: 16px; overflow-wrap: anywhere; }
h2 { font-size: 14px; }
button, summary, input { font: inherit; }
button {
  min-width: 30px; padding: 2px 8px; border: 1px solid #b5bcc7; border-radius: 4px; background: #f6f7f9; cursor: pointer;
}
button:hover { background: #e9ecf1; }
:focus-visible { outline: 2px solid #0072b2; outline-offset: 1px; }
svg.panel { display: block; }
.box { position: relative; touch-action: none; cursor: grab; user-select: none; -webkit-user-select: none; }
.box:active { cursor: grabbing; }
.view { position: absolute; inset: 0 0 0 108px; overflow: hidden; pointer-events: none; }
svg.moving { position: absolute; left: -108px; width: 100%; height: 100%; overflow: visible; will-change: transform; }
#heads { position: absolute; }
.caption { padding: 8px 12px 4px; }
.caption p { margin: 4px 0 0; }
.caption ul, .loop { margin: 2px 0 0; padding-left: 20px; color: #444; font-size: 13px; }
.caption li, .loop li { overflow-wrap: anywhere; }
.caption button { margin-top: 4px; }
.caption summary { margin-top: 2px; color: #444; font-size: 13px; cursor: pointer; }
p.why.fails { color: #b3261e; }
p.why.holds { color: #00704a; }
.loop { margin: 0 12px 12px; list-style: none; }

#tools { position: sticky; top: 0; z-index: 2; padding: 4px 12px 0; background: #fff; border-bottom: 1px solid #d8dce2; }
#buttons { display: flex; flex-wrap: wrap; gap: 4px 6px; align-items: center; }
#tools details { position: relative; }
#tools summary { padding: 2px 8px; border: 1px solid #b5bcc7; border-radius: 4px; background: #f6f7f9; cursor: pointer; }
#tools details > div {
  position: absolute; z-index: 3; max-height: 60vh; width: max-content; max-width: 86vw; margin-top: 2px; overflow: auto;
  padding: 6px 8px;
  background: #fff; border: 1px solid #b5bcc7; border-radius: 4px; box-shadow: 0 3px 10px #0003;
}
#lanes ol { margin: 0 0 6px; padding: 0; list-style: none; }
#lanes li { display: flex; gap: 6px; align-items: center; padding: 1px 0; }
#lanes label { flex: 1; min-width: 9ch; overflow-wrap: anywhere; }
#keys dl { display: grid; grid-template-columns: auto 1fr; gap: 2px 12px; margin: 0; font-size: 13px; }
#keys dt { font-weight: 600; }
#keys dd { margin: 0; }
#strip { position: relative; height: 40px; margin: 2px -12px 0; overflow: hidden; touch-action: none; cursor: pointer; }
#strip .all { stroke: #66707f; stroke-width: 1.2; fill: none; }
#strip .hits { stroke: #0072b2; stroke-width: 2; fill: none; }
#strip svg { position: absolute; top: 0; left: 0; pointer-events: none; }
#strip .window {
  position: absolute; top: 0; left: 0; height: 40px; background: #0072b224; border: solid #0072b2; border-width: 1px 3px;
  will-change: transform;
}
#strip text { font-size: 11px; fill: #555; }

.scripted main { display: grid; grid-template-columns: minmax(0, 1fr) 320px; }
#panels { min-width: 0; overflow-x: auto; }
.scripted #panels { overflow: hidden; }
#side { align-self: start; position: sticky; top: var(--tools, 0); padding: 8px 10px; border-left: 1px solid #d8dce2; }
#side summary { font-weight: 600; cursor: pointer; }
#side label { display: block; margin: 6px 0 2px; font-size: 12px; color: #555; }
#side input { width: 100%; padding: 4px 6px; border: 1px solid #b5bcc7; border-radius: 4px; }
#count { margin: 4px 0; font-size: 12px; color: #555; }
#rows {
  margin: 0; padding: 0; max-height: calc(100vh - var(--tools, 0px) - 130px); overflow: hidden auto; list-style: none;
  border: 1px solid #d8dce2;
}
#rows li {
  display: grid; grid-template-columns: 4.5ch minmax(0, 1fr); gap: 0 8px; padding: 2px 6px; font-size: 12px; cursor: pointer;
  border-left: 4px solid transparent;
}
#rows .words { display: flex; flex-wrap: wrap; justify-content: space-between; gap: 0 8px; }
#rows .line { text-align: right; color: #555; }
#rows .what { overflow-wrap: anywhere; }
#rows .stamp { color: #555; font-size: 11px; white-space: nowrap; }
#rows .named.fails { border-left-color: #b3261e; }
#rows .named.holds { border-left-color: #00704a; }
#rows .named.fails:not(.lit) { background: #fdf0ef; }
#rows .named.holds:not(.lit) { background: #edf7f2; }
#rows .lit { background: #ffe9a8; }
.head .hide { cursor: pointer; opacity: 0; fill: #555; }
.head:hover .hide { opacity: 1; }
.scripted .head { cursor: ns-resize; }
.dragged .lane { stroke: #0072b2; }
.layer { fill: none; }
.states { stroke-width: 9; }
.skews { stroke: #9aa4b2; stroke-width: 5; stroke-opacity: .38; }
.readings { stroke: #7a5195; stroke-width: 3; stroke-opacity: .6; }
.messages { stroke: #44546a; stroke-width: 1.3; }
.layer.moved { stroke: #8a1c1c; stroke-dasharray: 2 2; }
.stamps { fill: #fff; stroke: #8a1c1c; }
.layer.pulses { stroke: #fff; }
.layer.heads { fill: #44546a; }
.found { fill: #56b4e9; }
.dots { fill: #222; }
.lit { fill: none; stroke: #f5b301; stroke-width: 4; }
#tip {
  position: fixed; z-index: 4; visibility: hidden; pointer-events: none; max-width: 60ch; padding: 4px 7px; white-space: pre-wrap;
  font-size: 12px; background: #fffff2; border: 1px solid #999; border-radius: 3px; overflow-wrap: anywhere;
}
@media (max-width: 820px) {
  .scripted main { grid-template-columns: minmax(0, 1fr); }
  #side { position: static; order: -1; padding: 4px 12px; border-left: 0; border-bottom: 1px solid #d8dce2; }
  #rows { max-height: 34vh; }
  #tip { max-width: 86vw; }
}
"""
