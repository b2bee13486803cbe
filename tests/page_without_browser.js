// Runs the code of a page without a browser: elements are remembered and never drawn. Of each class it prints the name, the columns of its
// table, the ops of the scripts, the cells of pairs, and how wide the lanes are and how far the last text goes. `node page_without_browser.js PAGE`.
const fs=require("fs"); const html=fs.readFileSync(process.argv[2],"utf8");
class El { constructor(n){this.name=n;this.attrs={};this.children=[];this.style={};this.dataset={};this.listeners={};this.classList={add(){},remove(){}};this.clientWidth=900;this.scrollLeft=0;this.clientHeight=500;}
 setAttribute(k,v){this.attrs[k]=String(v);} removeAttribute(k){delete this.attrs[k];} append(...c){this.children.push(...c.map(x=>x instanceof El&&x.name==="#fragment"?x.children:[x]).flat());} replaceChildren(...c){this.children=[];this.append(...c);} addEventListener(){} querySelectorAll(){return [];} getBoundingClientRect(){return {left:0,top:0,width:900,height:500};} getContext(){return new Proxy({}, {get:(t,k)=>k in t?t[k]:()=>{}, set:(t,k,v)=>(t[k]=v,true)});} closest(){return this;} matches(){return false;} focus(){} get textContent(){return this.text!==undefined?this.text:this.children.map(c=>c instanceof El?c.textContent:String(c)).join("");} set textContent(v){this.text=String(v);this.children=[];} get parentElement(){return new El("div");} get value(){return this._v||"";} set value(v){this._v=v;} }
const byId={};
for (const m of html.matchAll(/<script type="application\/json" id="([^"]+)">([\s\S]*?)<\/script>/g)) { const e=new El("script"); e.text=m[2]; byId[m[1]]=e; }
global.document={getElementById:id=>byId[id]||(byId[id]=new El(id)),createElement:n=>new El(n),createElementNS:(_,n)=>new El(n),createDocumentFragment:()=>new El("#fragment"),querySelectorAll:()=>[],addEventListener(){},documentElement:new El("html"),get activeElement(){return null;}};
global.window={addEventListener(){},devicePixelRatio:1}; global.location={hash:""}; global.history={replaceState(){}}; Object.defineProperty(global,"navigator",{value:{clipboard:{}}}); global.getComputedStyle=()=>({getPropertyValue:()=>"#000"}); global.matchMedia=()=>({addEventListener(){}}); global.getSelection=()=>({});
const code=html.match(/<script>\n([\s\S]*?)<\/script>/)[1].replace('"use strict";','');
(0,eval)(code+"\n;globalThis.data=data;globalThis.choose=choose;globalThis.firstOf=firstOf;globalThis.shownRunOf=()=>shownRun;globalThis.detail=detail;");
const found = e => e instanceof El ? [e, ...e.children.flatMap(found)] : [];
for (const it of data.classes) {
  choose(it, null);
  const table = found(detail).find(e => e.name === "table"), lanes = shownRunOf();
  const rows = table ? table.children[1].children.map(row => row.children.map(cell => cell.textContent)) : [];
  const texts = lanes ? found(lanes.svg).filter(e => e.name === "text" && !e.attrs["text-anchor"]) : [];
  const ends = texts.map(e => Number(e.attrs.x) + 7.3 * e.textContent.length);
  console.log(JSON.stringify({ name: it.name, base: rows.map(r => r[1]), row: rows.map(r => r[2]), source: rows.map(r => r[3]), scripts: found(detail).filter(e => e.name === "li").map(e => e.textContent), cells: found(document.getElementById("pairs")).filter(e => e.name === "rect").map(e => e.textContent), width: lanes && Number(lanes.svg.attrs.width), needed: Math.max(0, ...ends), texts: texts.map(e => e.textContent) }));
}
if (data.base) choose(null, null);
