// The page of a prefix's changes as they come.

import {$, api, badge, h, link, look, plural} from './elements.js';
import {CAUSES, Names, VIEW_NAMES} from './names.js';
import {routeOf} from './routes.js';

const SHOWN = 200; // changes at once
const POLL = 1000; // milliseconds between two questions for changes

function changeCells(change, names, router, time) {
  const td = (name, content, kind) => h('td', {'data-label': name, class: (kind || '') + (content ? '' : ' blank')}, content || '');
  const kinds = {announce: ['good', 'announced'], withdraw: ['bad', 'withdrawn'], up: ['good', 'peer up'], down: ['bad', 'peer down'],
    opened: ['plain', 'router connected'], closed: ['bad', 'router gone']};
  const [kind, text] = kinds[change.change];
  const what = change.change === 'announce' ? routeOf(change) : change.change === 'closed' ? CAUSES[change.cause]
    : change.change === 'withdraw' && change.id !== null ? 'path identifier ' + change.id : null;
  return h('tr', {class: 'fresh'}, td('Time', time), td('Step', String(change.step)), td('What', badge(kind, text)),
    td('Peer', change.peer ? names.peer(router, change.peer) : null),
    td('View', change.view ? VIEW_NAMES[change.view] : null), td('Route', what));
}

class Watch {
  // Begins with what is kept of the past, or with the next step.
  constructor(prefix, router, names, isPast) {
    Object.assign(this, {prefix, router, names, step: isPast ? 0 : null, isPast});
    this.rows = h('tbody', {});
    this.note = h('div', {});
    this.head = h('p', {class: 'told'}, 'Asking the station');
    this.button = h('button', {type: 'button', click: () => this.turn()}, 'Stop');
    this.none = h('p', {class: 'foot soft'}, 'No change yet.');
    this.is_on = true;
  }

  element() {
    const name = link(this.names.router(this.router), '/routers', {router: this.router});
    const columns = ['Time', 'Step', 'What', 'Peer', 'View', 'Route'].map(text => h('th', {scope: 'col'}, text));
    return [h('h1', {}, `Changes of ${this.prefix}`), this.head, this.note,
      h('section', {class: 'card'}, h('div', {class: 'head'}, h('h2', {}, name), h('p', {}, this.button)),
        h('table', {}, h('thead', {}, h('tr', {}, columns)), this.rows), this.none),
      h('p', {class: 'more'}, look('Routes of ' + this.prefix, this.prefix))];
  }

  turn() {
    this.is_on = !this.is_on;
    this.button.textContent = this.is_on ? 'Stop' : 'Go on';
    if (this.is_on) this.poll();
  }

  say(text) {
    this.note.append(h('p', {class: 'note'}, `${new Date().toLocaleTimeString('en-GB')}: ${text}`));
  }

  async poll() {
    try {
      const from = this.step === null ? {} : {from: this.step};
      const answer = await api('/api/changes', {router: this.router, prefix: this.prefix, ...from});
      $('fault').replaceChildren();
      if (this.step !== null && answer.steps < this.step) this.say('The station began anew; what happened meanwhile isn’t known.');
      else if (answer.missed) {
        this.say(`${plural(answer.missed, 'step')} of this router ${this.isPast ? 'before these' : 'meanwhile'} are kept no more; `
          + 'whether the prefix changed in them isn’t known.');
      }
      if (answer.truncated) this.say('More changes came at once than are read; some are left out here.');
      const time = this.isPast ? 'earlier' : new Date().toLocaleTimeString('en-GB');
      for (const change of answer.rows) this.rows.prepend(changeCells(change, this.names, this.router, time));
      while (this.rows.childElementCount > SHOWN) this.rows.lastElementChild.remove();
      if (answer.rows.length) $('status').textContent = plural(answer.rows.length, 'change');
      this.isPast = false;
      this.none.hidden = this.rows.childElementCount > 0;
      this.step = answer.steps;
      const now = new Date().toLocaleTimeString('en-GB');
      this.head.textContent = `As of revision ${answer.revision}, step ${answer.steps} of this router, asked at ${now}`;
    } catch (fault) {
      const again = this.step === null ? 'Asking again.' : `Asking again from step ${this.step}.`;
      $('fault').replaceChildren(h('p', {class: 'alert'}, `${fault.message} ${again}`));
    }
    if (this.is_on) setTimeout(() => this.is_on && this.poll(), POLL);
  }
}

export async function livePage(parameters) {
  $('watch').hidden = false;
  const prefix = (parameters.get('prefix') || '').trim().toLowerCase();
  $('w-prefix').value = prefix;
  $('w-past').checked = parameters.has('past');
  document.title = 'Live changes – Looking glass';
  const names = await Names.ask();
  const rows = [...names.routers.values()];
  const live = rows.filter(row => row.state === 'live');
  $('w-router').replaceChildren(...rows.map(row => h('option', {value: row.router}, `${names.router(row.router)} (${row.router}, ${row.state})`)));
  const meant = parameters.has('router') ? names.meant(parameters.get('router')) : [];
  const chosen = meant.length ? meant[0] : (live[0] || rows[0] || {}).router;
  $('w-router').value = String(chosen);
  if (!prefix) return $('w-prefix').focus();
  if (meant.length !== 1 && (parameters.has('router') || live.length > 1)) {
    const why = !parameters.has('router') ? 'Several routers are live'
      : meant.length ? 'Several routers have this name' : 'No connected router has this name';
    $('answer').replaceChildren(...names.notes(meant), h('p', {class: 'note'}, why + ': choose one and press Watch.'));
    return undefined;
  }
  const watch = new Watch(prefix, chosen, names, parameters.has('past'));
  $('answer').replaceChildren(...watch.element());
  return watch.poll();
}
