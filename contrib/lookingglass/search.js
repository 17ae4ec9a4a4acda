// The page that answers what was typed.

import {$, api, h, link, look, plural, told} from './elements.js';
import {Names} from './names.js';
import {routersPage, sinceOf, stateOf} from './routers.js';
import {Answer, completeness} from './routes.js';

// The path attributes by which routes are asked for, each with what a title says of it.
const BY_ATTRIBUTE = {
  through: numbers => 'through ' + numbers.split(',').map(n => 'AS' + n).join(' '),
  community: community => 'with the community ' + community,
  other: type => 'with an attribute of type ' + type,
};

const numbersOf = text => text.trim().replace(/as\s*/gi, '').split(/[\s,]+/).map(n => n.replace(/^0+(?=.)/, '')).join(',');

// What was typed: the parameters of the question, and its name.
function asked(q, kind) {
  if (/^([0-9]+:[0-9]+(:[0-9]+)?|r[to]:[0-9.]+:[0-9]+|[0-9a-f]{16})$/i.test(q)) {
    const community = q.toLowerCase();
    return {parameters: {community}, title: 'Routes ' + BY_ATTRIBUTE.community(community)};
  }
  if (/^(as\s*)?[0-9]+$/i.test(q) && kind !== 'through') {
    const origin = numbersOf(q);
    return {parameters: {origin}, title: `Routes that AS${origin} originates`};
  }
  if (/^(as\s*)?[0-9]+([\s,]+(as\s*)?[0-9]+){0,3}$/i.test(q)) {
    const through = numbersOf(q);
    return {parameters: {through}, title: 'Routes ' + BY_ATTRIBUTE.through(through)};
  }
  if (q.includes('/')) {
    const prefix = q.toLowerCase();
    return kind === 'within' ? {parameters: {within: prefix}, title: `Routes within ${prefix}`, prefix}
      : {parameters: {prefix}, title: `Routes of ${prefix}`, prefix};
  }
  if (/^[0-9a-f:.]+$/i.test(q) && /[:.]/.test(q)) {
    return {parameters: {address: q.toLowerCase()}, title: `Longest match for ${q.toLowerCase()}`};
  }
  return null;
}

// The attributes that are asked for beside what was typed; their fields are filled in.
function attributesOf(parameters) {
  const found = {};
  for (const name of Object.keys(BY_ATTRIBUTE)) {
    const text = (parameters.get(name) || '').trim();
    $('q-' + name).value = text;
    if (text) found[name] = name === 'through' ? numbersOf(text) : text.toLowerCase();
  }
  $('only').open = Object.keys(found).length > 0;
  return found;
}

export async function searchPage(parameters) {
  $('search').hidden = false;
  const q = (parameters.get('q') || '').trim();
  $('q').value = q;
  const attributes = attributesOf(parameters);
  const isByAttributes = Object.keys(attributes).length > 0;
  if (!q && !isByAttributes) {
    $('q').focus();
    const names = await Names.ask();
    $('answer').replaceChildren(routerLinks(names));
    return;
  }
  document.title = `${q || 'Routes'} – Looking glass`;
  $('status').textContent = 'Asking the station';
  const names = await Names.ask();
  const named = q ? [...names.routers.values()].filter(row => row.name && row.name.toLowerCase().includes(q.toLowerCase())) : [];
  const question = q ? asked(q, parameters.get('with')) : {parameters: {}, title: 'Routes'};
  if (!question) {
    $('status').textContent = '';
    if (named.length) return routersPage(new URLSearchParams(named.map(row => ['router', row.router])), `Routers named ${q}`);
    const why = 'That is no prefix, no address, no AS number and no community, and no router has such a name.';
    $('answer').replaceChildren(h('h1', {}, q), h('p', {class: 'note'}, why), routerLinks(names));
    return;
  }
  const chosen = ['router', 'peer', 'view'].filter(name => parameters.has(name));
  const only = Object.fromEntries(chosen.map(name => [name, parameters.get(name)]));
  const wanted = {...question.parameters, ...attributes};
  const answer = await api('/api/routes', {...wanted, ...only});
  const many = answer.rows.length;
  const isPart = Boolean(wanted.origin || wanted.through || wanted.community || wanted.other);
  const isWhole = !answer.truncated && !chosen.includes('peer') && !chosen.includes('view') && !isPart;
  const title = [question.title, ...Object.keys(attributes).filter(name => !question.parameters[name]).map(name => BY_ATTRIBUTE[name](attributes[name]))];
  $('status').textContent = many ? plural(many, 'route') : 'No route';
  const links = [];
  if (question.prefix && question.parameters.prefix) {
    links.push(link('More specifics', '/', {q, with: 'within'}), look('Longest match of its address', question.prefix.split('/')[0]),
      link('Watch its changes', '/live', {prefix: question.prefix}));
  }
  if (question.parameters.within) links.push(look('This prefix alone', question.prefix));
  if (question.parameters.origin) links.push(link('Routes through it', '/', {q, with: 'through'}));
  if (named.length) links.push(link(`Routers named ${q}`, '/routers', named.map(row => ['router', row.router])));
  $('answer').replaceChildren(...[
    h('h1', {}, title.join(', ')),
    told(answer, many ? `: ${plural(many, 'route')}` : ''),
    links.length ? h('p', {class: 'more'}, links) : null,
    many && isPart ? h('p', {class: 'told'},
      'A route that has other attributes after policy, or before it, may not be here: follow its prefix.') : null,
    answer.truncated ? h('p', {class: 'note'},
      `There are more: only the first ${plural(many, 'route')} were read. Ask for a longer prefix.`) : null,
    many ? null : h('p', {class: 'note'}, `No table has such a route${answer.counts && !answer.counts.waiting ? '' : ' so far'}.`),
    completeness(answer.counts),
    names.notes([...new Set(answer.rows.map(row => row.router))]),
    new Answer(answer, names, isWhole).sections(),
  ].flat().filter(Boolean));
}

function routerLinks(names) {
  const rows = [...names.routers.values()];
  const cell = (name, text) => h('td', {'data-label': name, class: text ? '' : 'blank'}, text || '');
  return h('section', {class: 'card'}, h('div', {class: 'head'}, h('h2', {}, 'Routers')), h('table', {},
    h('thead', {}, h('tr', {}, ['Router', 'State', 'Since', 'Peers up'].map(name => h('th', {scope: 'col'}, name)))),
    h('tbody', {}, rows.map(row => h('tr', {},
      h('th', {scope: 'row'}, link(names.router(row.router), '/routers', {router: row.router})),
      h('td', {'data-label': 'State'}, stateOf(row)), cell('Since', sinceOf(row, names.answer)),
      cell('Peers up', row.state === 'live' ? String(row.peers) : null))))));
}
