// Small parts of the page: elements, icons, and the marks for verdicts, units and suites. Text from files enters the page
// through textContent alone.
import { SUITES, UNITS, bytesWord, suiteName } from './text.mjs';

export const $ = (id) => document.getElementById(id);

// el('td', { class: 'job', on: { click } }, child, 'text'): an element. Properties and children that are false, null or
// undefined are left out.
export function el(name, properties = {}, ...children) {
  const present = (value) => value !== false && value !== null && value !== undefined;
  const node = document.createElement(name);
  for (const [key, value] of Object.entries(properties)) {
    if (key === 'on') for (const [event, act] of Object.entries(value)) node.addEventListener(event, act);
    else if (present(value)) node.setAttribute(key, value === true ? '' : value);
  }
  node.append(...children.flat().filter(present));
  return node;
}

export const button = (text, act, properties = {}) => el('button', { type: 'button', class: 'button', on: { click: act }, ...properties }, text);

export function icon(name, size = '') {
  const svg = document.createElementNS('http://www.w3.org/2000/svg', 'svg');
  svg.setAttribute('class', `icon ${size}`);
  svg.setAttribute('aria-hidden', 'true');
  const use = document.createElementNS('http://www.w3.org/2000/svg', 'use');
  use.setAttribute('href', `#i-${name}`);
  svg.append(use);
  return svg;
}

const VERDICT_WORDS = { genuine: 'genuine', forged: 'FORGED', unverified: 'not verified' };

export const verdictMark = (verdict) => el('span', { class: `mark ${verdict}` }, icon(verdict), VERDICT_WORDS[verdict]);

const UNIT_TRUST = { genuine: null, forged: 'do not use', unverified: 'claimed' };

// A unit with what is known of it. The units differ in shape, letters, pattern and colour; words say the trust.
export const unitMark = (unit, verdict) => el('span', { class: `unit unit-${unit} is-${verdict}` },
  el('span', { class: 'unit-short', 'aria-hidden': 'true' }, UNITS[unit].short),
  el('span', { class: 'unit-name' }, UNITS[unit].name),
  UNIT_TRUST[verdict] && el('span', { class: 'unit-trust' }, UNIT_TRUST[verdict]));

export const suiteMark = (suite) => [el('span', { class: 'suite' }, suiteName(suite)), ' ',
  SUITES[suite].retired ? el('span', { class: 'retired' }, 'retired') : null];

// Rows of a list of facts: [name, value, class]; a value that is null is left out.
export const factRows = (facts) => facts.filter(([, value]) => value !== null).map(([name, value, kind = '']) => el('div',
  { class: kind.includes('print-only') ? 'print-only' : null },
  el('dt', {}, name), el('dd', { class: kind.includes('code') ? 'code' : null }, value)));

// A heading with a small remark.
export const heading = (title, remark = '') => el('h3', {}, title, el('span', { class: 'remark' }, remark));

export const warningItems = (warnings) => warnings.map((text) => el('li', {}, icon('forged'), text));
export const noteItems = (notes) => notes.map((text) => el('li', {}, text));

export const messageBytes = (e) => bytesWord(e.messageLength);
