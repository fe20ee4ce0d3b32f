"""How a card looks, on a screen and on paper: black on white, with patterns and letters where another page would have colours."""

STYLE = """
@page { size: A4 portrait; margin: 11mm }
* { box-sizing: border-box }
body { font: 14px/1.35 sans-serif; color: #000; background: #fff; margin: 1em auto; max-width: 62em; padding: 0 1em }
h1 { font-size: 1.6em; margin: 0; display: flex; justify-content: space-between; align-items: center; gap: 1em; overflow-wrap: anywhere }
.answer { border: 3px solid #000; padding: 0 .5em }
.uses { margin: .3em 0 }
.list { margin: .4em 0; padding-left: 1.6em; overflow-wrap: anywhere }
.chip svg { display: block; width: 100%; max-height: 82vh; margin: .4em auto }
.below { display: flex; gap: 1.5em; align-items: flex-start; flex-wrap: wrap }
.blocks, .held { border-collapse: collapse; font-size: .85em }
.blocks caption, .held caption { text-align: left; font-weight: bold; white-space: nowrap }
.blocks td, .blocks th, .held td, .held th { border: 1px solid #666; padding: .1em .5em; font-weight: normal }
.held td, .held th { text-align: left; vertical-align: top }
.held th { white-space: nowrap }
.held summary { cursor: pointer; white-space: nowrap }
.held ul { margin: .2em 0; padding-left: 1.2em; min-width: 14em; overflow-wrap: anywhere }
.blocks td.no { border: 3px double #000; font-weight: bold }
.below + .below { margin-top: .7em }
.key { flex: 1 1 18em; font-size: .85em }
.key p { margin: 0 0 .5em }
.proved { font-size: .75em; overflow-wrap: anywhere }
svg rect { stroke: #999; stroke-width: 1; fill: #fff }
svg rect.ram { fill: url(#hatch) }
svg rect.rim { fill: #f2f2f2 }
svg rect.used { fill: #d5d5d5; stroke: #000; stroke-width: 1.5 }
svg rect.refused { fill: none; stroke: #000; stroke-width: 3; stroke-dasharray: 11 7 }
svg text { font: 15px sans-serif; text-anchor: middle; fill: #000 }
svg text.sign { fill: #888; font-size: 11px }
svg text.sign.used { fill: #000; font-size: 14px; font-weight: bold; paint-order: stroke; stroke: #d5d5d5; stroke-width: 4px }
svg text.axis { fill: #333; font-size: 13px }
svg text.side { text-anchor: end }
.halo { fill: none; stroke: #fff; stroke-width: 11; stroke-linejoin: round; stroke-linecap: round }
.wire { fill: none; stroke: #000; stroke-width: 5; stroke-linejoin: round; stroke-linecap: round }
.mark circle { fill: #fff; stroke: #000; stroke-width: 3 }
.mark text { font-size: 14px; font-weight: bold }
.tile { cursor: help }
.tile > rect { fill-opacity: 0; stroke: none }
.panel { display: none; pointer-events: none }
.tile:hover > .panel, .tile:focus > .panel, .tile:target > .panel { display: inline }
.tile:hover > rect, .tile:focus > rect, .tile:target > rect { stroke: #000; stroke-width: 5 }
.tile:focus { outline: none }
.panel rect { fill: #fff; stroke: #000; stroke-width: 3 }
.panel text { text-anchor: start; font-family: monospace }
.panel .strong { font-weight: bold }
@media print {
  body { margin: 0; padding: 0; max-width: none; font-size: 10pt }
  .chip svg { max-height: 140mm }
  .small svg { max-height: 120mm }
  .below { gap: 3mm }
  .blocks, .held, .key { font-size: .72em }
  .held td, .held th { padding: 0 .4em }
  .panel { display: none !important }
}
"""

# RAM tiles are hatched
PATTERNS = ('<defs><pattern id="hatch" width="8" height="8" patternUnits="userSpaceOnUse" patternTransform="rotate(45)">'
            '<rect width="8" height="8" style="stroke: none; fill: #fff"/><line x1="0" y1="0" x2="0" y2="8" stroke="#bbb" stroke-width="2"/>'
            '</pattern></defs>')
