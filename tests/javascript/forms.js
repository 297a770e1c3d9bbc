// A function for each form of statement and expression that tools/lower takes. The answer of each document is a tree.
import { useThing, cx } from 'lib';
let total = 0;
function ifs(a, b) { if (a) { if (b) return [a]; else total += 1; } else if (b) { return b; } return { a, b }; }
function bothReturn(a) { if (a) { return [1]; } else { return [2]; } }
function switches(a, b) { const out = []; switch (a) { case 1: out.push(b); case 2: out.push(2); break; case b: return out; default: out.push(0); } return out; }
function switchNoDefault(a) { switch (a.kind) { case 'x': return 1; case 'y': { a.n = 2; break; } } return a; }
function switchAllReturn(a) { switch (a) { case 1: return [a]; default: throw new Error('no'); } }
function switchInLoop(list) { for (const x of list) { switch (x) { case 0: continue; case 1: break; case 2: return x; default: list.push(x); } } return list; }
function fors(n) { const out = []; for (let i = 0, j = n; i < j; i++, j--) { if (i === 3) continue; if (i > 10) break; out.push(i); } return out; }
function forEver(q) { for (;;) { const x = q.next(); if (x.done) return x; } }
function forUpdateLogical(n, f) { let i = 0; for (i = n ? 1 : 2; i < 9; n && i++) f(i); return i; }
function forInitTernary(n, f) { for (n ? f() : f(1); n--;) f(n); }
function forNeverAgain(list) { for (let i = 0; i < list.length; i++) { return list[i]; } return null; }
function whiles(node) { let n; while ((n = node.next) && n.ok) { if (n.skip) continue; node = n; } return node; }
function doWhiles(a) { let i = 0; do { i++; if (a[i]) break; } while (i < a.length); return i; }
function doOnce(a) { do { if (a) break; return [a]; } while (a.x); return null; }
function forIns(o) { const keys = []; for (const k in o) { if (!Object.hasOwn(o, k)) continue; keys.push(k); } for (o.key in o) keys.push(o.key); return keys; }
function forOfs(list, { deep = 1, ...rest } = {}) { let last; for (const { a, b: [c, , ...d] } of list) last = { a, c, d, deep, rest }; for (const { e = 3 } of list) last.e = e; for (last of list) total++; return last; }
function labels(m) { outer: for (const r of m) { for (const c of r) { if (c === 0) continue outer; if (c === 1) break outer; m.push(c); } } block: { if (m.length) break block; m.push(0); } return m; }
function tries(f, x) { let r; try { r = f(x); if (r) return r.a.b; for (const y of r) f(y); } catch (e) { r = e.message; } try { x.close(); } catch { r = null; } return r; }
function tryValues(f, x) { try { const v = x?.a?.(f()) ?? (x ? f(1) : f(2)); return v && [v]; } catch ({ message }) { return message; } }
function tryQuiet(x) { try { [1, 2]; } catch (e) { x = e; } return x; }
function prefix(n) { let i = 0; const q = --n; return ++i + q; }
function nestedTry(f) { try { try { f(1); } catch (e) { f(e); } f(2); } catch (e) { f(e); } return f; }
function logicals(a, b, c) { const x = a && b.c || (a ?? c); a ||= [x]; b.c &&= x; b[c] ??= {}; return [x, a]; }
function ternaries(a, b) { return a ? (b ? [a] : [b]) : (b ? { a } : null); }
function ternaryTest(a, b) { return (a ? b : !b) ? [a] : (a = [b]) ? a : b; }
function chains(a, i) { return a?.b.c?.[i]?.(a?.d, ...i).e; }
function chainOfChain(a) { return ((a?.b)?.c, (a?.b.c)?.d.e(a?.())); }
function chainThenMore(a) { const x = (a?.b).c; return a.f?.()?.g ? x : [x]; }
function sequences(a) { let x; return (x = a.b, a.c(), [x, a]); }
function updates(o) { let i = 0; ++i; i--; o.n++; --o[i]; total++; const f = () => { i++; }; i++; f(); return i; }
function deletes(o, k) { delete o.a; delete o[k]; return typeof o; }
function assigns(o, k) { let a, b; [a, b = 2, ...o.rest] = k; ({ a, ['x' + b]: o.y, z: { b } } = o); o.a += 1; o[k] -= a; total *= 2; return [a, b]; }
function literals(a) { return [1, -0x1f, 1e3, 10n, 'é', true, null, undefined, /x+/gi, , ...a, `t${a}u`, String.raw`q`, new Date(...a)]; }
function objects(a, k) { return { a, 'b-c': 1, 2: a, [k]: a, ...a, f() { return a; }, }; }
function closures(list) { let n = 0; const each = x => { n += x; }; list.forEach(each); return () => n; }
function hoists(a) { const r = helper(a); const even = x => x === 0 || odd(x - 1); const odd = x => even(x - 1); return [r, even(a)]; function helper(x) { return x ? helper(x - 1) : [x]; } }
function vars(a) { if (a) { var x = [1]; } else { x = 2; } for (var i = 0; i < 3; i++) { var y = i; } return x + y; }
function recursive() { return function fact(n) { return n < 2 ? 1 : n * fact(n - 1); }; }
function metas() { debugger; return [new.target, this, arguments[0]]; }
function casts(x) { const y = /** @type {Map<string, number>} */ (x.get('a')); y.set('b', /** @type {any} */ (x)); return y; }
function Component(props) {
  const [s, setS] = React.useState(0); const ref = useRef(null);
  const list = React.useMemo(() => props.items.map(x => x + s), [props.items, s]);
  const click = useCallback(() => setS(s + 1), [s]);
  if (!list.length) return null;
  const kids = []; for (const x of list) { if (x === 0) return createElement('b', null, 'zero'); kids.push(React.createElement(Item, { key: x, ...props.rest, x })); }
  const thing = useThing(props.thing, list);
  return React.createElement(React.Fragment, null, createElement('ul', { onClick: click, ref }, kids, 'end'), thing);
}
function EarlyInScope(props) { const out = []; for (const x of props.list) { if (x.bad) return x; out.push(x); } props.done(out); return createElement('p', null, out); }
function Nested(props) { const a = {}; a.x = [props.x]; a.y = { z: [props.x, props.y.z] }; const b = [a.x]; a.w = b; return [a, b]; }
function Reassigns(props) { let y = null; const x = []; if (props.a) { y = [props.b]; x.push(y); } x.push(props.c); return [x, y]; }
function Same(props) { const a = [props.x]; const b = { a: props.x }; const c = () => props.x; return [a, b, c]; }
function inlined(a) { const x = (() => { if (a.b) return [a]; for (const y of a) { if (y) return y; } })(); (function () { a.push(x); })(); return (() => x)(); }
function defaultInMiddle(a, b) { switch (a) { case 1: default: b.push(1); case 2: b.push(2); break; case 3: } return b; }
function labeledSwitch(a, b) { out: switch (a) { case 1: for (const x of b) { if (x) break out; } case 2: b = [b]; } return b; }
function throwsInCatch(f) { try { return f(); } catch (e) { if (e.code) throw new Error(e.code); } return null; }
async function waits(f) { const x = await f(); return [x]; }
function memoInTests(p) {
  while (useMemo(() => p.x, [p.x])) p.next();
  for (; useMemo(() => p.y, [p.y]); ) p.next();
  return useMemo(() => p.z, [p.z]) ? [p] : useMemo(() => p.u, [p.u]) && useCallback(() => p, [p]);
}
function Elements({ items, title = 'none', ...rest }) {
  const [chosen, setChosen] = useState(null);
  const [state, dispatch] = useReducer((s, a) => s + a, 0);
  return (
    <section className="all" {...rest} onClick={() => setChosen(null)}>
      <h1>{title}: {items.length} items</h1>
      {/* nothing */}
      <ul>{items.map(it => <Item.Row key={it.id} it={it} checked />)}</ul>
      <>{chosen && <b data-x='1' onClick={() => dispatch(1)}>{state}</b>} {items.length < 3 ? <i /> : null}</>
    </section>
  );
}
