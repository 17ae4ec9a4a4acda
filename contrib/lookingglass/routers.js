// The page of routers and peers.

import {$, api, badge, h, plural, told} from './elements.js';
import {CAUSES, Names, VIEW_NAMES, duration, familyOf, moment} from './names.js';

export function stateOf(row) {
  if (row.state === 'live') return badge('good', 'live');
  if (row.state === 'idle') return badge('plain', 'never connected');
  const where = row.offset === undefined ? '' : ` (byte ${row.offset})`;
  return [badge('bad', 'gone'), h('span', {class: 'facts'}, `${row.cause}${row.why ? ' ' + row.why : ''}: ${CAUSES[row.cause]}${where}`)];
}

// A time, and how long before the answer that was, where the two clocks allow it.
function ago(seconds, answer) {
  const passed = Math.floor(Date.parse(answer.time) / 1000) - seconds;
  return moment(seconds) + (passed >= 0 ? ` (${duration(passed)} ago)` : '');
}

// Since when a router is connected, or gone. Not every station tells that.
export function sinceOf(row, answer) {
  const seconds = row.state === 'closed' ? row.until : row.since;
  return seconds === undefined || seconds === null ? null : ago(seconds, answer);
}

// From where a connection came, when, and when it ended: names and texts.
function* comingOf(row, answer) {
  if (row.from) {
    const at = row.from.lastIndexOf(':');
    yield ['From', `${row.from.slice(0, at).replace(/[[\]]/g, '')} port ${row.from.slice(at + 1)}`];
  }
  if (typeof row.since === 'number') yield ['Connected', row.state === 'live' ? 'since ' + sinceOf(row, answer) : moment(row.since)];
  if (typeof row.until === 'number') yield ['Gone since', sinceOf(row, answer)];
}

// What wasn't read, by cause. Statistics and TLVs that nobody knows are no loss; routes are.
function unreadOf(row) {
  const malformed = row.malformed ? plural(row.malformed, 'message') + ' with a malformed attribute' : null;
  const texts = [row.tlvs ? plural(row.tlvs, 'unknown TLV') : null, row.stats ? plural(row.stats, 'unknown statistic') : null, malformed,
    ...Object.entries(row.others || {}).map(([family, count]) => `${plural(count, 'attribute')} of ${familyOf(family)}`),
    row.more ? plural(row.more, 'attribute') + ' of further families' : null];
  return texts.filter(Boolean).join(', ');
}

// Which routes of a router no table has, or had.
function* lostOf(row) {
  const families = [...Object.keys(row.others || {}).map(familyOf), ...row.more ? ['further families'] : []];
  if (families.length) yield `No table ${row.state === 'live' ? 'has' : 'had'} this router’s routes of ${families.join('; ')}.`;
  if (row.malformed) {
    yield `${plural(row.malformed, 'message')} with a malformed attribute withdrew the routes in ${row.malformed === 1 ? 'it' : 'them'}.`;
  }
}

function downText(row) {
  const detail = row.notification ? `, NOTIFICATION ${row.notification.code}/${row.notification.subcode}`
    : row.event !== undefined ? `, event ${row.event}` : '';
  return `reason ${row.reason}: ${row.name.replaceAll('-', ' ')}${detail}`;
}

function tablesOf(marks) {
  const name = mark => `${VIEW_NAMES[mark.view]} IPv${mark.family}`;
  // Of a table without a row and without an End-of-RIB no message came: it waits for nothing. Not every station tells the rows.
  const done = marks.filter(mark => mark.complete), waiting = marks.filter(mark => !mark.complete && mark.rows !== 0);
  const views = [...new Set(waiting.map(mark => mark.view))];
  const families = view => waiting.filter(mark => mark.view === view).map(mark => 'IPv' + mark.family).join(', ');
  const table = mark => h('span', {class: 'badge good', 'data-table': `${mark.view} ${mark.family}`}, name(mark) + ' complete');
  return [h('span', {class: 'tables'}, done.map(table)), waiting.length ? h('span', {class: 'facts'},
    'waiting: ' + views.map(view => `${VIEW_NAMES[view]} ${families(view)}`).join('; ')) : null];
}

async function countTables(router, marks, elements, button) {
  button.disabled = true;
  try {
    for (const mark of marks) {
      const answer = await api('/api/count', {router, peer: mark.peer, view: mark.view, family: mark.family});
      const list = elements.get(mark.peer);
      const shown = list.querySelector(`[data-table="${mark.view} ${mark.family}"]`);
      const text = `${VIEW_NAMES[mark.view]} IPv${mark.family}${mark.complete ? ' complete' : ' waiting'}: ${plural(answer.count, 'route')}`;
      if (shown) shown.textContent = text;
      else if (answer.count) list.querySelector('.tables').append(badge('warn', text));
    }
    button.textContent = 'Counted';
  } catch (fault) {
    button.disabled = false;
    $('fault').replaceChildren(h('p', {class: 'alert'}, fault.message));
  }
}

function routerCard(row, names, peers, marks, answer) {
  const facts = [];
  const add = (name, value) => facts.push(h('div', {}, h('dt', {}, name), h('dd', {}, value)));
  const routes = h('span', {}, '…');
  for (const [name, text] of comingOf(row, answer)) add(name, text);
  if (row.messages !== undefined) {
    for (const [name, field] of [['Peers up', 'peers'], ['Messages', 'messages'], ['Bytes', 'bytes'], ['Orphans', 'orphans']]) {
      add(name, row[field].toLocaleString('en'));
    }
    const why = unreadOf(row);
    add('Unread parts', [row.unread.toLocaleString('en'), why ? h('span', {class: 'soft'}, ': ' + why) : null].filter(Boolean));
  }
  if (row.state === 'live') {
    add('Routes', routes);
    const show = answer => { routes.textContent = answer.count.toLocaleString('en'); };
    api('/api/count', {router: row.router}).then(show, fault => { routes.textContent = 'not known: ' + fault.message; });
  }
  const elements = new Map();
  const button = h('button', {type: 'button', click: () => countTables(row.router, marks, elements, button)}, 'Count routes by table');
  const cell = (name, content, kind) => h('td', {'data-label': name, class: (kind || '') + (content ? '' : ' blank')}, content || '');
  const body = peers.map(peer => {
    const isUp = peer.state === 'up';
    const session = isUp && peer.ports[0] ? `${peer.local} port ${peer.ports[0]}, peer’s port ${peer.ports[1]}` : null;
    const list = cell('Tables', isUp ? tablesOf(marks.filter(mark => mark.peer === peer.peer)) : null);
    elements.set(peer.peer, list);
    return h('tr', {}, h('th', {scope: 'row'}, names.peer(row.router, peer.peer)),
      cell('State', isUp ? badge('good', 'up') : [badge('bad', 'down'), h('span', {class: 'facts'}, downText(peer))]),
      cell('BGP Identifier', peer.id, 'mono'), cell('Session', session, 'mono'), list);
  });
  const columns = ['Peer', 'State', 'BGP Identifier', 'Session', 'Tables'];
  return h('section', {class: 'card', 'aria-label': names.router(row.router)},
    h('div', {class: 'head'}, h('h2', {}, names.router(row.router), ' ', stateOf(row)),
      row.name ? h('p', {class: 'hint'}, `router ${row.router}${row.descr ? ', ' + row.descr : ''}`) : null,
      facts.length ? h('dl', {}, facts) : null,
      [...lostOf(row)].map(text => h('p', {class: 'lost'}, text))),
    body.length ? h('table', {}, h('thead', {}, h('tr', {}, columns.map(name => h('th', {scope: 'col'}, name)))), h('tbody', {}, body)) : null,
    marks.length ? h('div', {class: 'foot'}, button) : null);
}

export async function routersPage(parameters, title) {
  const [routers, peers, marks] = await Promise.all([api('/api/routers'), api('/api/peers'), api('/api/marks')]);
  const names = new Names(routers, peers);
  const isChosen = parameters.has('router');
  const chosen = parameters.getAll('router').flatMap(text => names.meant(text, true));
  const rows = routers.rows.filter(row => !isChosen || chosen.includes(row.router));
  const all = routers.truncated || peers.truncated || marks.truncated;
  document.title = 'Routers and peers – Looking glass';
  $('status').textContent = '';
  $('answer').replaceChildren(...[
    h('h1', {}, title || 'Routers and peers'),
    told(routers, `: ${routers.rows.filter(row => row.state === 'live').length} of ${plural(routers.rows.length, 'router')} live`),
    isChosen ? h('p', {class: 'more'}, h('a', {href: '/routers'}, 'All routers')) : null,
    all ? h('p', {class: 'note'}, 'There are more peers or tables than were read.') : null,
    rows.length ? null : h('p', {class: 'note'}, 'The station has no such router.'),
    names.notes(rows.map(row => row.router)),
    rows.map(row => routerCard(row, names, peers.rows.filter(peer => peer.router === row.router),
      marks.rows.filter(mark => mark.router === row.router), routers)),
  ].flat().filter(Boolean));
}
