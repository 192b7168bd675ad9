//! What is the same in each page: its style after that of the chart, its parts, and the steps of its script.

/// From the style's rules to the chart.
pub const HEAD: &str = "
:root{--bg:#fff;--ink:#1d2433;--mut:#5d6778;--rule:#d9dee7;--soft:#f5f7fa;--hl:#dfe9f7;--run:#9bd0f2;
--set:#4f93c9;--sleep:#1f3f66;--amb:#cf7c00;--at:#8a5200;--idle:#8d97a8}
@media(prefers-color-scheme:dark){:root{--bg:#12151b;--ink:#e8ecf3;--mut:#9ba6b8;--rule:#2d3542;--soft:#191e27;
--hl:#263245;--run:#8fcbf0;--set:#4a8cc2;--sleep:#27496f;--amb:#f0a32a;--at:#ffc766;--idle:#646f82}}
*{box-sizing:border-box}
html,body{margin:0;height:100%;background:var(--bg);color:var(--ink);font:14px/1.45 system-ui,sans-serif}
body{display:grid;grid-template-columns:minmax(0,1fr) 400px}
#c{overflow:auto;height:100vh}#c svg{display:block}
#p{border-left:1px solid var(--rule);padding:18px 20px;height:100vh;overflow:auto}
#nav{display:flex;gap:6px;align-items:center}
button{font:inherit;min-width:36px;height:32px;border:1px solid var(--rule);border-radius:6px;
background:var(--soft);color:var(--ink);cursor:pointer}
button:focus-visible,input:focus-visible{outline:2px solid var(--set);outline-offset:2px}
#r{flex:1;min-width:60px;accent-color:var(--set)}
#n{color:var(--mut);font-size:12px;min-width:74px;text-align:right}
pre{font:13px/1.6 ui-monospace,'DejaVu Sans Mono',Menlo,Consolas,monospace;margin:14px 0 0;color:var(--mut);
white-space:pre-wrap}
pre b{display:block;color:var(--ink);background:var(--hl);border-radius:4px;margin:0 -8px;padding:2px 8px}
pre i{display:block;font-style:normal;min-height:1.6em}
#s{font-size:17px;line-height:1.4;min-height:4.3em;margin:14px 0 6px}
h2{font-size:12px;font-weight:600;color:var(--mut);margin:16px 0 4px}
table{border-collapse:collapse;width:100%}
td{padding:3px 8px 3px 0;vertical-align:top;border-top:1px solid var(--rule);font-size:13px}
td:first-child{white-space:nowrap;width:62px;font-weight:700}
tr.new td{background:var(--hl)}.k{color:var(--mut)}.d{color:var(--at);font-weight:600}
.sw{display:inline-block;width:10px;height:14px;border-radius:2px;margin-right:7px;vertical-align:-2px}
td.idle .sw{background:var(--idle);width:2px;margin:0 11px 0 4px}td.run .sw{background:var(--run)}
td.set .sw{background:var(--set)}td.asleep .sw{background:var(--sleep);outline:1px solid var(--set)}
td.dgr .sw{background:repeating-linear-gradient(135deg,var(--amb) 0 3px,var(--sleep) 3px 6px);
outline:1px solid var(--amb)}
.q{display:inline-block;font:11px/16px ui-monospace,monospace;border:1px solid var(--ink);border-radius:9px;
padding:0 6px;margin:1px 4px 1px 0}
.q.x{background:var(--ink);color:var(--bg);font-weight:700}.q.o{border-radius:0;border-style:dashed}
#help{color:var(--mut);font-size:12px;margin-top:18px}.row{cursor:pointer}
@media(max-width:1000px){body{display:block}#c{height:55vh}
#p{height:45vh;border-left:0;border-top:1px solid var(--rule)}}
</style></head><body><div id=\"c\">
";

/// From the chart to the rows.
pub const SCRIPT: &str = "</div>
<div id=\"p\"><div id=\"nav\"><button id=\"a\" aria-label=\"first row\">⇤</button>
<button id=\"b\" aria-label=\"row before\">←</button><button id=\"f\" aria-label=\"next row\">→</button>
<button id=\"z\" aria-label=\"last row\">⇥</button><input id=\"r\" type=\"range\" min=\"0\" aria-label=\"row\">
<span id=\"n\"></span></div>
<pre id=\"l\"></pre><div id=\"s\" aria-live=\"polite\"></div>
<h2>Tasks</h2><table id=\"t\"></table><h2>Queues, first to last</h2><table id=\"q\"></table>
<h2>Condition words</h2><table id=\"w\"></table>
<p id=\"help\">Keys: left and right, a row; page up and page down, ten rows; home and end. A click on a row goes
there. In a queue: dark, exclusive; ▴ priority; * a bookmark.</p></div>
<script>
var R=";

/// After the rows.
pub const FOOT: &str = ",at=0;
function $(x){return document.getElementById(x)}
function E(s){return String(s).replace(/&/g,'&amp;').replace(/</g,'&lt;')}
function state(n){var s={};for(var j=0;j<=n;j++)for(var x in R[j].d)s[x]=R[j].d[x];return s}
function num(x){return +x.replace(/^[^0-9]*/,'')}
function keys(s,c){return Object.keys(s).filter(function(x){return x[0]==c}).sort(function(a,b){
return c=='w'&&a[1]!=b[1]?(a<b?-1:1):num(a)-num(b)})}
function line(n,h,t){return '<tr'+(h?' class=new':'')+'><td>'+n+'</td>'+t+'</tr>'}
function tasks(s,d){return keys(s,'t').map(function(x){var v=s[x],g=/dgr/.test(v[0]);
return line(x,x in d,'<td class=\"'+v[0]+'\"><span class=sw></span>'+E(v[1])+
(v[2]?'<br><span class='+(g?'d':'k')+'>'+E(v[2])+'</span>':'')+'</td>')}).join('')}
function queues(s,d){return keys(s,'h').map(function(x){var v=s[x];return line(x,x in d,'<td>'+(v.length?
v.map(function(e){return '<span class=\"q'+(/!$/.test(e)?' x':'')+(e[0]=='*'||num(x)>303?' o':'')+'\">'+
e.replace('!','')+'</span>'}).join(''):'<span class=k>empty</span>')+'</td>')}).join('')}
function words(s,d){return keys(s,'w').map(function(x){return line(x.slice(1),x in d,'<td>'+s[x]+'</td>')}).join('')}
function heads(){document.querySelector('[data-k=hd]').setAttribute('transform',
'translate(0,'+Math.max(0,$('c').scrollTop-O)+')')}
function go(n,quiet){at=Math.max(0,Math.min(R.length-1,n||0));var s=state(at),r=R[at],d=r.d,l='';
for(var j=at-2;j<=at+2;j++){var g=j==at?'b':'i';l+='<'+g+'>'+(R[j]?E(R[j].l):'')+'</'+g+'>'}
$('l').innerHTML=l;$('s').textContent=r.s;$('n').textContent=(at+1)+' of '+R.length;$('r').value=at;
$('t').innerHTML=tasks(s,d);$('q').innerHTML=queues(s,d)||'<tr><td class=k>none yet</td></tr>';
$('w').innerHTML=words(s,d)||'<tr><td class=k>all 0</td></tr>';
var m=document.querySelector('[data-k=cur]'),c=$('c');m.setAttribute('y',r.y);m.setAttribute('height',r.z);
if(r.y<c.scrollTop+60||r.y+60>c.scrollTop+c.clientHeight)c.scrollTop=at?r.y-c.clientHeight/2:0;
if(!quiet)history.replaceState(null,'','#'+(at+1))}
$('r').max=R.length-1;$('a').onclick=function(){go(0)};$('b').onclick=function(){go(at-1)};
$('f').onclick=function(){go(at+1)};$('z').onclick=function(){go(R.length-1)};
$('r').oninput=function(){go(+this.value)};
addEventListener('keydown',function(e){var n={ArrowLeft:at-1,ArrowRight:at+1,PageUp:at-10,PageDown:at+10,Home:0,
End:R.length-1}[e.key];if(n!==undefined&&!e.ctrlKey&&!e.altKey&&!e.metaKey){go(n);e.preventDefault()}});
$('c').addEventListener('click',function(e){var i=e.target.getAttribute('data-i');if(i===null)return;
for(var j=0;j<R.length;j++)if(R[j].i==+i)go(j)});
$('c').addEventListener('scroll',heads);
addEventListener('hashchange',function(){go(+location.hash.slice(1)-1,1)});go(+location.hash.slice(1)-1,1);heads();
</script></body></html>
";
