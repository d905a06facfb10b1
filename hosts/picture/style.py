"""What is the same in each picture: the style sheet and the legend."""

# For light and dark displays, with the patterns that it uses.
LOOKS = """\
<style>
text{font:11px monospace;fill:#1a202c}
.small,.tick{font-size:10px}.tiny{font-size:8px}.tick{fill:#555;text-anchor:middle}
.page{fill:#fff}.grid{stroke:#e2e2e2}.lane{fill:#f4f5f7;stroke:#c4c8d0}
.name{stroke:#fff;stroke-width:3px;paint-order:stroke}.plain{stroke:none}
.bar{stroke:#1a3f6b;stroke-width:1.2}.committed{fill:#1f5fa8}.on-committed{fill:#fff;stroke:none}
.on-write{fill:#fff}
.self{fill:#fff;stroke:#b3261e}.ancestor{fill:url(#slant);stroke:#8a5300;stroke-dasharray:4 2}
.sibling{fill:url(#dots);stroke:#6b2d8c}
.live{fill:#e5f5e8;stroke:#1b7837}.arrow{fill:#1b7837}
.stem,.tie,.against,.cross{fill:none;stroke:#444}.tie{stroke-dasharray:5 4}
.against{stroke:#b3261e;stroke-dasharray:1 3;stroke-width:2}
.mark{fill:#ffd54a;stroke:#1a202c}.holder{fill:#fff;stroke:#b3261e;stroke-width:2}
.refusal{fill:#8c1d18}
.write{fill:#41516b;stroke:#1a202c}.read{fill:#fff;stroke:#41516b;stroke-dasharray:2 2}
.base{stroke:#1f5fa8;stroke-width:2;fill:#fff}
.look,.version{fill:#fff;stroke:#41516b}.kept{fill:#41516b;stroke:#41516b}
.undone{fill:none;stroke:#b3261e;stroke-width:1.5}
.order{fill:#ffd54a;stroke:#1a202c}.place{fill:#1a202c}
.ink{stroke:#8a5300;stroke-width:1.4}.dot{fill:#6b2d8c}.cross{stroke:#1a202c;stroke-width:1.6}
@media (prefers-color-scheme:dark){
text{fill:#e6e9ef}.tick{fill:#a5acb8}.page{fill:#15181d}.grid{stroke:#2b3038}
.lane{fill:#1c2027;stroke:#444b57}
.name{stroke:#15181d}.plain,.on-committed{stroke:none}
.bar{stroke:#9cc4f0}.committed{fill:#5b9bdf}.on-committed,.on-write{fill:#0d1015}
.self{fill:#15181d;stroke:#ff8a80}.ancestor{fill:url(#slant);stroke:#f0b860}
.sibling{fill:url(#dots);stroke:#d0a0ee}
.live{fill:#173420;stroke:#7fd494}.arrow{fill:#7fd494}.stem,.tie{stroke:#aab2bf}
.against{stroke:#ff8a80}.holder{stroke:#ff8a80;fill:#15181d}
.mark{stroke:#e6e9ef;fill:#8a6d00}.refusal{fill:#ffb4ab}
.write{fill:#a9b8d0;stroke:#e6e9ef}.read{fill:#15181d;stroke:#a9b8d0}
.base{stroke:#5b9bdf;fill:#15181d}
.look,.version{fill:#15181d;stroke:#a9b8d0}.kept{fill:#a9b8d0;stroke:#a9b8d0}.undone{stroke:#ff8a80}
.order{stroke:#e6e9ef;fill:#8a6d00}.place{fill:#e6e9ef}
.ink{stroke:#f0b860}.dot{fill:#d0a0ee}.cross{stroke:#e6e9ef}
}
</style>
<defs>
<pattern id="slant" width="6" height="6" patternUnits="userSpaceOnUse">
<path class="ink" d="M0 6L6 0"/></pattern>
<pattern id="dots" width="5" height="5" patternUnits="userSpaceOnUse">
<circle class="dot" cx="2" cy="2" r="1"/></pattern>
</defs>
"""

# What shapes and lines mean.
LEGEND = """\
<text class="name plain" x="14" y="18">Actions</text>
<rect class="bar committed" x="80" y="8" width="30" height="14"/>
<text class="small" x="124" y="18">committed</text>
<rect class="bar self" x="250" y="8" width="30" height="14"/>
<path class="cross" d="M280 8m-4 3l8 8m0 -8l-8 8"/>
<text class="small" x="294" y="18">aborted by itself</text>
<rect class="bar ancestor" x="420" y="8" width="30" height="14"/>
<path class="cross" d="M450 8m-4 7h8"/><text class="small" x="464" y="18">with an ancestor</text>
<rect class="bar sibling" x="590" y="8" width="30" height="14"/>
<path class="cross" d="M620 8m4 2l-8 5l8 5"/><text class="small" x="634" y="18">by a sibling</text>
<rect class="bar live" x="760" y="8" width="30" height="14"/>
<path class="arrow" d="M790 8l8 7l-8 7z"/><text class="small" x="804" y="18">live at the end</text>
<text class="name plain" x="14" y="42">Ties</text><path class="stem" d="M80 38h30"/>
<text class="small" x="124" y="42">to the parent</text><path class="tie" d="M250 38h30"/>
<text class="small" x="294" y="42">to the creator of a nested topaction</text>
<path class="against" d="M540 38h26"/><circle class="holder" cx="566" cy="38" r="4"/>
<text class="small" x="580" y="42">who stood against a Conflict</text>
<path class="mark" d="M764 32l6 6l-6 6l-6 -6z"/>
<text class="small" x="778" y="42">refused, and why</text>
<rect class="order" x="886" y="31" width="14" height="14" rx="7"/>
<text class="tick place" x="893" y="42">1</text>
<text class="small" x="904" y="42">serial order</text>
<text class="name plain" x="14" y="66">Objects</text>
<rect class="write" x="80" y="58" width="30" height="9"/>
<text class="small" x="124" y="66">held for writing</text>
<rect class="read" x="250" y="58" width="30" height="9"/>
<text class="small" x="294" y="66">held for reading</text>
<path class="look" d="M408 63m-3 0a3 3 0 1 0 6 0a3 3 0 1 0 -6 0z"/>
<text class="small" x="416" y="66">read</text>
<path class="kept" d="M456 63m-3 -3h6v6h-6z"/><text class="small" x="464" y="66">write</text>
<path class="version" d="M510 63m-3 -3h6v6h-6z"/>
<text class="small" x="518" y="66">before its commit</text>
<path class="undone" d="M634 63m-3 -3l6 6m0 -6l-6 6"/>
<text class="small" x="642" y="66">undone</text>
<path class="base" d="M696 54v14"/><circle class="base" cx="696" cy="65" r="3"/>
<text class="small" x="708" y="66">what is there for good from a commit on</text>
"""
