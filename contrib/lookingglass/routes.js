// Routes by router, prefix and peer, with their views side by side.

import {badge, family, h, link, look, plural} from './elements.js';
import {addressOf, distinguisherOf} from './names.js';

const SHOWN = 200; // prefixes at once
const ATTRIBUTES = ['next', 'origin', 'path', 'med', 'pref', 'atomic', 'agg', 'comm', 'other'];
// What a whole line of the station has beside these, but its flags.
const FURTHER = ['large_communities', 'ext_communities', 'otc', 'aigp', 'originator', 'clusters', 'raw'];
// Of an attribute's flags those that say something of it: Optional, Transitive, Partial (RFC 4271, section 4.3).
const TELLING = 0xe0, PARTIAL = 0x20;
const OCTETS = 64; // of an attribute that nobody reads
const TYPES = {2: 'AS path', 9: 'originator', 10: 'cluster list', 16: 'extended communities', 25: 'IPv6 extended communities', 26: 'AIGP',
  32: 'large communities', 35: 'only to customer'};

const typeOf = code => TYPES[code] || 'attribute ' + code;
const isWhole = route => route.raw !== undefined;
const areWhole = (a, b) => Boolean(a && b && isWhole(a) && isWhole(b));
const same = (a, b) => JSON.stringify(a) === JSON.stringify(b);
const communitiesOf = route => [...route.comm, ...route.large_communities || [], ...route.ext_communities || []];
// The attributes that both routes have, with other flags.
const otherFlags = (a, b) => Object.keys(a.flags).filter(code => code in b.flags
  && (parseInt(a.flags[code], 16) ^ parseInt(b.flags[code], 16)) & TELLING);

function pathOf(route, other) {
  if (route.path === null) return h('span', {class: 'path soft'}, 'no AS path');
  if (!route.path.length) return h('span', {class: 'path soft'}, 'empty AS path');
  const pieces = route.path.map(piece => {
    if (typeof piece === 'number') return look(String(piece), 'AS' + piece);
    const [[kind, numbers]] = Object.entries(piece);
    const [left, right] = {set: '{}', 'confed-sequence': '()', 'confed-set': '[]'}[kind];
    return [left, numbers.map((n, i) => [i ? ',' : '', look(String(n), 'AS' + n)]), right];
  });
  const differs = other && !same(other.path, route.path);
  const spaced = pieces.map((piece, i) => [i ? ' ' : '', piece]);
  return h('span', {class: 'path'}, h('span', {class: differs ? 'changed' : null}, spaced));
}

function fact(differs, text) {
  return h('b', {class: differs ? 'changed' : null}, text);
}

// What a whole line tells: names, texts, and whether each differs from what `other` has, where that is whole too.
function* furtherOf(route, other) {
  const is = (r, name) => r && r[name] !== null && r[name].length !== 0;
  const show = {otc: asn => 'AS' + asn, clusters: list => list.join(', ')};
  for (const [label, name] of [['originator', 'originator'], ['clusters', 'clusters'], ['only to customer', 'otc'], ['AIGP', 'aigp']]) {
    if (!is(route, name) && !is(other, name)) continue;
    yield [label, is(route, name) ? (show[name] || String)(route[name]) : 'none', other && !same(other[name], route[name])];
  }
  for (const code of new Set([...Object.keys(route.raw), ...Object.keys(other ? other.raw : {})])) {
    const value = route.raw[code];
    const text = value === undefined ? 'not so' : value.length <= 2 * OCTETS ? value || 'empty' : `${value.slice(0, 2 * OCTETS)}… (${value.length / 2} octets)`;
    yield [typeOf(code), text, other && other.raw[code] !== value];
  }
  for (const code of Object.keys(route.flags)) {
    const differs = other && otherFlags(route, other).includes(code);
    if (differs) yield ['flags of ' + typeOf(code), `${route.flags[code]} (before ${other.flags[code]})`, true];
    else if (parseInt(route.flags[code], 16) & PARTIAL) yield [typeOf(code), 'partial', false];
  }
}

// A route; where `other` is there, what differs from it is marked.
export function routeOf(route, other) {
  const facts = [];
  const put = (label, differs, text) => facts.push(facts.length ? ', ' : '', label + ' ', fact(differs, text));
  const add = (label, name, text) => put(label, other && !same(other[name], route[name]), text);
  if (route.next !== null) add('next hop', 'next', route.next.split(',').map(addressOf).join(', '));
  if (route.med !== null || other && other.med !== null) add('MED', 'med', route.med === null ? 'none' : String(route.med));
  if (route.pref !== null || other && other.pref !== null) {
    add('local preference', 'pref', route.pref === null ? 'none' : String(route.pref));
  }
  if (route.origin !== null) add('origin', 'origin', route.origin);
  if (route.agg !== null) add('aggregator', 'agg', `AS${route.agg.asn} ${route.agg.id}`);
  if (route.atomic || other && other.atomic) add('atomic aggregate', 'atomic', route.atomic ? 'yes' : 'no');
  if (isWhole(route)) {
    for (const [label, text, differs] of furtherOf(route, areWhole(route, other) ? other : null)) put(label, differs, text);
  } else if (route.other.length || other && other.other.length) add('other attributes', 'other', route.other.join(', ') || 'none');
  if (route.id !== null) facts.push(', path identifier ', h('b', {}, String(route.id)));
  const before = other ? new Set(communitiesOf(other)) : null, has = communitiesOf(route);
  const community = c => h('a', {class: 'comm' + (before && !before.has(c) ? ' changed' : ''), href: '/?' + new URLSearchParams({q: c})}, c);
  const gone = other ? communitiesOf(other).filter(c => !has.includes(c)) : [];
  return h('div', {class: 'route'}, pathOf(route, other), h('span', {class: 'facts'}, facts),
    has.length ? h('span', {}, has.map(community)) : null,
    gone.length ? h('span', {class: 'facts'}, 'without ', gone.map(c => h('span', {class: 'comm changed'}, h('s', {}, c)))) : null);
}

// The type codes of the attributes that both have and of which nothing else is told: by a station that has no whole lines.
const uncompared = (a, b) => areWhole(a, b) ? [] : a.other.filter(code => b.other.includes(code));

function uncomparedText(a, b) {
  const codes = a && b ? uncompared(a, b) : [];
  return codes.length ? h('span', {class: 'facts'}, `other attributes ${codes.join(', ')}: not compared`) : null;
}

function sameRoute(a, b) {
  const names = areWhole(a, b) ? [...ATTRIBUTES, ...FURTHER] : ATTRIBUTES;
  return names.every(name => same(a[name], b[name])) && !(areWhole(a, b) && otherFlags(a, b).length);
}

// The routes by router, by prefix and VRF, by peer and path identifier.
function grouped(rows) {
  const routers = new Map();
  const under = (map, key, make) => map.get(key) || map.set(key, make()).get(key);
  for (const row of rows) {
    const distinguisher = row.peer.split('-')[1];
    const prefixes = under(routers, row.router, () => new Map());
    const empty = () => ({prefix: row.prefix, distinguisher, loc: [], peers: new Map()});
    const group = under(prefixes, row.prefix + ' ' + distinguisher, empty);
    if (row.view === 'loc') group.loc.push(row);
    else under(group.peers, row.peer + ' ' + row.id, () => ({peer: row.peer, id: row.id}))[row.view] = row;
  }
  return routers;
}

export class Answer {
  // `isWhole` says whether the answer has all routes of its prefixes: else what isn't in it may be in a table all the same.
  constructor(answer, names, isWhole) {
    this.names = names;
    this.isWhole = isWhole;
    this.tables = new Map(answer.tables.map(t => [[t.router, t.peer, t.view, t.family].join(' '), t.complete]));
    this.locs = answer.tables.filter(t => t.view === 'loc');
    this.routers = grouped(answer.rows);
  }

  complete(router, peer, view, prefix) {
    return this.tables.get([router, peer, view, family(prefix)].join(' ')) === true;
  }

  state(router, peer, view, prefix) {
    const isComplete = this.complete(router, peer, view, prefix);
    return h('span', {class: 'state'}, isComplete ? badge('good', 'table complete') : badge('warn', 'table waiting'));
  }

  unasked() {
    return h('span', {class: 'empty'}, 'not in this answer');
  }

  cell(router, row, view, prefix) {
    return row[view] ? [routeOf(row[view]), this.state(router, row.peer, view, prefix)] : null;
  }

  before(router, row, prefix) {
    const found = this.cell(router, row, 'adj-in-pre', prefix);
    if (found) return found;
    if (!row['adj-in-post']) return null;
    if (!this.isWhole) return this.unasked();
    return this.complete(router, row.peer, 'adj-in-pre', prefix) ? h('span', {class: 'empty'}, 'no route')
      : [h('span', {class: 'empty'}, 'not known'), this.state(router, row.peer, 'adj-in-pre', prefix)];
  }

  after(router, row, prefix, group) {
    const was = row['adj-in-pre'], now = row['adj-in-post'];
    if (now) {
      const isAlike = was && sameRoute(was, now);
      const alike = () => badge('plain', uncompared(was, now).length ? 'no change in what is read' : 'as before policy');
      const what = [!was ? null : isAlike ? alike() : badge('warn', 'changed by policy'), uncomparedText(was, now)];
      const state = this.state(router, row.peer, 'adj-in-post', prefix);
      if (isAlike) return [what, state];
      return [routeOf(now, was), h('span', {class: 'state'}, what), state];
    }
    if (!was) return null;
    if (!this.isWhole) return this.unasked();
    const others = [...group.peers.values()].some(other => other.peer === row.peer && other['adj-in-post']);
    if (others) return h('span', {class: 'empty'}, 'none with this path identifier');
    const isDropped = this.complete(router, row.peer, 'adj-in-post', prefix);
    const what = isDropped ? badge('bad', 'dropped by policy') : h('span', {class: 'empty'}, 'not known');
    return [what, this.state(router, row.peer, 'adj-in-post', prefix)];
  }

  loc(router, group) {
    if (group.loc.length) return group.loc.map(row => [routeOf(row), this.state(router, row.peer, 'loc', row.prefix)]);
    if (!this.isWhole) return this.unasked();
    const tables = this.locs.filter(t => t.router === router && t.family === family(group.prefix)
      && t.peer.split('-')[1] === group.distinguisher);
    if (!tables.length) return h('span', {class: 'empty'}, 'the router sends no Loc-RIB');
    if (tables.every(t => t.complete)) {
      return [badge('bad', 'not chosen'), h('span', {class: 'state'}, badge('good', 'table complete'))];
    }
    return [h('span', {class: 'empty'}, 'not known'), h('span', {class: 'state'}, badge('warn', 'table waiting'))];
  }

  sent(router, row, prefix) {
    const both = ['adj-out-pre', 'adj-out-post'].filter(view => row[view]);
    return both.map(view => [h('span', {class: 'facts'}, view === 'adj-out-pre' ? 'before policy' : 'after policy'),
      this.cell(router, row, view, prefix)]);
  }

  group(router, group, hasSent) {
    const peers = [...group.peers.values()];
    if (!peers.length) peers.push(null);
    const isOfVrf = /[^0]/.test(group.distinguisher);
    const label = [look(group.prefix, group.prefix), isOfVrf ? h('span', {class: 'facts'}, 'RD ' + distinguisherOf(group.distinguisher)) : null];
    const td = (name, content, more) => {
      const blank = !content || Array.isArray(content) && !content.length;
      return h('td', {'data-label': name, class: (blank ? 'blank ' : '') + (more || '')}, content || '');
    };
    // A narrow page has the Loc-RIB behind all peers, in a row of its own.
    const last = h('tr', {class: 'narrow'}, h('td', {'data-label': 'Loc-RIB'}, this.loc(router, group)));
    return h('tbody', {class: 'group'}, peers.map((row, place) => h('tr', {},
      place ? null : h('th', {scope: 'rowgroup', rowspan: peers.length, class: 'prefix'}, label),
      row ? h('th', {scope: 'row'}, this.names.peer(router, row.peer),
        row.id === null ? null : h('span', {class: 'facts'}, 'path identifier ' + row.id))
        : h('td', {class: 'blank'}, h('span', {class: 'empty'}, 'no peer’s route')),
      td('Before policy', row && this.before(router, row, group.prefix)),
      td('After policy', row && this.after(router, row, group.prefix, group)),
      place ? null : h('td', {'data-label': 'Loc-RIB', class: 'loc', rowspan: peers.length}, this.loc(router, group)),
      hasSent ? td('Sent', row && this.sent(router, row, group.prefix)) : null)), last);
  }

  router(router, prefixes) {
    const groups = [...prefixes.values()];
    const hasSent = groups.some(group => [...group.peers.values()].some(row => row['adj-out-pre'] || row['adj-out-post']));
    const columns = [['Prefix', 'c-prefix'], ['Peer', 'c-peer'], ['Before policy'], ['After policy'], ['Loc-RIB'],
      ...hasSent ? [['Sent']] : []];
    const table = h('table', {class: 'routes'},
      h('thead', {}, h('tr', {}, columns.map(([name, kind]) => h('th', {scope: 'col', class: kind}, name)))));
    let shown = 0;
    const more = h('button', {type: 'button', click: () => show()});
    const foot = h('div', {class: 'foot'}, more);
    const show = () => {
      table.append(...groups.slice(shown, shown + SHOWN).map(group => this.group(router, group, hasSent)));
      shown = Math.min(shown + SHOWN, groups.length);
      more.textContent = `Show more (${plural(groups.length - shown, 'prefix').replace(/xs$/, 'xes')} left)`;
      foot.hidden = shown === groups.length;
    };
    show();
    return h('section', {class: 'card', 'aria-label': this.names.router(router)},
      h('div', {class: 'head'}, h('h2', {}, link(this.names.router(router), '/routers', {router})),
        h('p', {class: 'hint'}, `router ${router}`)), table, foot);
  }

  sections() {
    return [...this.routers].map(([router, prefixes]) => this.router(router, prefixes));
  }
}

export function completeness(counts) {
  if (counts === null) return h('p', {class: 'note'}, 'So many tables are there that their completeness wasn’t read.');
  const all = counts.complete + counts.waiting;
  if (!all) return h('p', {class: 'note'}, 'No peer of any router is up, so there is no table that could have a route.');
  if (!counts.waiting) return h('p', {class: 'told'}, `All ${plural(all, 'table')} that could have such a route are complete.`);
  return h('p', {class: 'told'}, `Of ${plural(all, 'table')} that could have such a route ${counts.complete} are complete and `,
    `${counts.waiting} wait for their End-of-RIB: they are still being sent, or the router never sends them. `,
    link('Which ones', '/routers', {}));
}
