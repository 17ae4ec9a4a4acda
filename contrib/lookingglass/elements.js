// What all pages need: elements, links, the JSON interface, the age of an answer.

const PATIENCE = 30000; // milliseconds for an answer

export const $ = id => document.getElementById(id);

export function h(tag, attributes, ...children) {
  const element = document.createElement(tag);
  for (const [name, value] of Object.entries(attributes || {})) {
    if (value === true) element.setAttribute(name, '');
    else if (typeof value === 'function') element.addEventListener(name, value);
    else if (value !== false && value !== null && value !== undefined) element.setAttribute(name, value);
  }
  element.append(...children.flat(Infinity).filter(child => child !== null && child !== undefined && child !== false));
  return element;
}

export const link = (text, path, parameters) => h('a', {href: path + '?' + new URLSearchParams(parameters)}, text);
export const look = (text, q) => link(text, '/', {q});
export const badge = (kind, text) => h('span', {class: 'badge ' + kind}, text);
export const plural = (n, one) => `${n.toLocaleString('en')} ${one}${n === 1 ? '' : 's'}`;
export const family = prefix => prefix.includes(':') ? 6 : 4;

export async function api(path, parameters) {
  const stop = new AbortController();
  const timer = setTimeout(() => stop.abort(), PATIENCE);
  let reply, body;
  try {
    reply = await fetch(path + '?' + new URLSearchParams(parameters || {}), {signal: stop.signal});
    // A number of 64 bits would be rounded, and two that differ be taken as one: it is kept as a text.
    body = JSON.parse((await reply.text()).replace(/("aigp": )([0-9]{16,})/g, '$1"$2"'));
  } catch (fault) {
    throw new Error('The looking glass doesn’t answer; so nothing is known of the routes.', {cause: fault});
  } finally {
    clearTimeout(timer);
  }
  if (reply.status === 400) throw new Error('That can’t be asked: ' + body.error);
  if (!reply.ok) throw new Error('No answer, so nothing is known of the routes: ' + body.error);
  return body;
}

// At which revision the answer holds, and how old it is, counted by the browser's own clock.
export function told(answer, ...more) {
  const came = performance.now();
  const age = h('span', {}, 'just now');
  setInterval(() => {
    const seconds = Math.floor((performance.now() - came) / 1000);
    age.textContent = seconds < 60 ? `${seconds} s ago` : `${Math.floor(seconds / 60)} min ago`;
  }, 1000);
  return h('p', {class: 'told'}, `As of revision ${answer.revision}, answered `, age, more);
}

export function fail(fault) {
  $('answer').replaceChildren();
  $('status').textContent = '';
  $('fault').replaceChildren(h('p', {class: 'alert'}, fault.message));
}
