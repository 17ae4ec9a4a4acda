// Who a router and a peer are.

import {api, h, look} from './elements.js';

export const VIEW_NAMES = {'adj-in-pre': 'before policy', 'adj-in-post': 'after policy', 'loc': 'Loc-RIB',
  'adj-out-pre': 'sent before policy', 'adj-out-post': 'sent after policy'};
export const CAUSES = {
  ended: 'the router closed the connection at a message’s end',
  terminated: 'the router said that it closes (Termination)',
  cutshort: 'the connection ended inside a message',
  broken: 'a message has no value in this reading',
  full: 'the connection took 2^46 bytes',
  readfault: 'a read failed, or the router said nothing for too long',
};

// A route distinguisher (RFC 4364, section 4.2) of 16 hexadecimal digits: an AS or an address, and a number.
export function distinguisherOf(digits) {
  const number = (from, to) => parseInt(digits.slice(from, to), 16);
  const kind = number(0, 4);
  if (kind === 0) return `${number(4, 8)}:${number(8, 16)}`;
  if (kind === 1) return `${[4, 6, 8, 10].map(at => number(at, at + 2)).join('.')}:${number(12, 16)}`;
  if (kind === 2) return `${number(4, 12)}:${number(12, 16)}`;
  return digits;
}

// An address as RFC 5952, section 5, has those that map an IPv4 address; the station writes the last 32 bits in hexadecimal.
export function addressOf(text) {
  const found = /^::ffff:([0-9a-f]{1,4}):([0-9a-f]{1,4})$/.exec(text);
  if (!found) return text;
  const [high, low] = found.slice(1).map(digits => parseInt(digits, 16));
  return '::ffff:' + [high >> 8, high & 255, low >> 8, low & 255].join('.');
}

// Address families (RFC 4760) that the station doesn't keep, by their AFI and SAFI.
const FAMILIES = {'1/2': 'IPv4 multicast', '2/2': 'IPv6 multicast', '1/4': 'labelled IPv4', '2/4': 'labelled IPv6', '1/5': 'multicast VPN',
  '1/73': 'IPv4 SR policies', '2/73': 'IPv6 SR policies', '1/128': 'VPN-IPv4', '2/128': 'VPN-IPv6', '1/132': 'route target constraints',
  '1/133': 'IPv4 flow specifications', '2/133': 'IPv6 flow specifications', '1/134': 'VPN-IPv4 flow specifications',
  '2/134': 'VPN-IPv6 flow specifications', '25/65': 'VPLS', '25/70': 'EVPN', '16388/71': 'BGP-LS', '16388/72': 'VPN of BGP-LS'};

export function familyOf(text) {
  const [afi, safi] = text.split('/');
  const name = FAMILIES[text];
  return name ? `${name} (AFI ${afi}, SAFI ${safi})` : `AFI ${afi}, SAFI ${safi}`;
}

// A time of the station, which counts seconds since 1970.
export function moment(seconds) {
  const date = new Date(seconds * 1000);
  return Number.isNaN(date.getTime()) ? seconds + ' seconds after 1970' : date.toISOString().slice(0, 19).replace('T', ' ') + ' UTC';
}

export function duration(seconds) {
  const [size, name, smaller, below] = seconds >= 86400 ? [86400, 'd', 3600, 'h'] : seconds >= 3600 ? [3600, 'h', 60, 'min']
    : seconds >= 60 ? [60, 'min', 1, 's'] : [1, 's'];
  const rest = smaller ? Math.floor(seconds % size / smaller) : 0;
  return `${Math.floor(seconds / size)} ${name}${rest ? ` ${rest} ${below}` : ''}`;
}

// Who a router and a peer are.

export class Names {
  constructor(routers, peers) {
    this.answer = routers;
    this.routers = new Map(routers.rows.map(row => [row.router, row]));
    this.peers = new Map(peers.rows.map(row => [row.router + ' ' + row.peer, row]));
  }

  static async ask() {
    return new Names(...await Promise.all([api('/api/routers'), api('/api/peers')]));
  }

  // The routers that are connected by this name, by their numbers.
  lanes(name) {
    return this.called(name).filter(n => this.routers.get(n).state === 'live');
  }

  // These and those that have gone, of which the station may tell the name.
  called(name) {
    return [...this.routers.values()].filter(row => row.name === name).map(row => row.router);
  }

  // The numbers of the routers that a text means: digits are a number, anything else is a name.
  meant(text, isGoneToo) {
    return /^[0-9]+$/.test(text) ? [Number(text)] : isGoneToo ? this.called(text) : this.lanes(text);
  }

  // Two connections of one name are told apart by their numbers.
  router(n) {
    const row = this.routers.get(n);
    if (!row || !row.name) return 'Router ' + n;
    return this.called(row.name).length > 1 ? `${row.name} (router ${n})` : row.name;
  }

  // What is to be said of names that several of these routers have.
  notes(routers) {
    const names = new Set(routers.map(n => (this.routers.get(n) || {}).name).filter(name => name && this.lanes(name).length > 1));
    return [...names].map(name => h('p', {class: 'note'}, `Routers ${this.lanes(name).join(' and ')} have the name ${name}: `
      + 'two routers, or one that connected again before its old connection was given up.'));
  }

  peer(n, key) {
    const [kind, distinguisher, ...rest] = key.split('-');
    const row = this.peers.get(n + ' ' + key) || {};
    const parts = [];
    if (kind === '3') parts.push('Loc-RIB', row.table ? h('span', {class: 'soft'}, ' ' + row.table) : null);
    else {
      parts.push(h('span', {class: 'mono'}, rest.join('-')));
      if (row.asn) parts.push(' ', look('AS' + row.asn, 'AS' + row.asn));
    }
    if (/[^0]/.test(distinguisher)) parts.push(h('span', {class: 'soft'}, ' RD ' + distinguisherOf(distinguisher)));
    return parts;
  }
}
