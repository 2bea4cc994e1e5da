// Bytes and numbers in words, and the names of suites and units.

// nonce and tag in bytes; docs/FORMAT.md, "Suites". A test compares them with the library's answers.
export const SUITES = {
  1: { name: 'AES-128', version: 1, nonce: 16, tag: 16 },
  2: { name: 'CHAM-128/128', version: 1, nonce: 16, tag: 16 },
  3: { name: 'Speck-64/128', version: 1, nonce: 15, tag: 8 },
  4: { name: 'CHAM-64/128', version: 1, nonce: 15, tag: 8, retired: true },
  5: { name: 'AES-128', version: 2, nonce: 16, tag: 16 },
  6: { name: 'Speck-64/128', version: 2, nonce: 15, tag: 8 },
};

export const UNITS = { 1: { name: 'newton-metres', short: 'N·m' }, 2: { name: 'inch-pounds', short: 'in·lb' } };

// What is known of an entry's unit, by its verdict. Only a right tag makes it more than a claim.
export const TRUST = { genuine: 'verified', forged: 'claimed, and the tag differs', unverified: 'claimed' };

export const suiteName = (suite) => {
  const facts = SUITES[suite];
  return facts ? facts.name + (facts.version === 2 ? ' v2' : '') : `suite ${suite}`;
};

export const grouped = (n) => String(n).replace(/\B(?=(\d{3})+$)/g, ',');
export const bytesWord = (n) => `${grouped(n)} byte${n === 1 ? '' : 's'}`;
export const entriesWord = (n) => `${grouped(n)} ${n === 1 ? 'entry' : 'entries'}`;

// "job 4102", "jobs 4102 and 4210", "jobs 1, 2, 3, 4 and 508 more"
export function jobsWord(jobs, most = 4) {
  if (jobs.length === 1) return `job ${jobs[0]}`;
  const over = jobs.length - most;
  const named = over > 0 ? jobs.slice(0, most) : jobs.slice(0, -1);
  return `jobs ${named.join(', ')} and ${over > 0 ? `${grouped(over)} more` : jobs.at(-1)}`;
}

const byteHex = (b) => b.toString(16).padStart(2, '0');
export const hex = (bytes, between = '') => Array.from(bytes, byteHex).join(between);

// Characters that are not shown as themselves: controls (except a line break), and those that reverse or hide others.
const HIDDEN = /[^\P{C}\n]|\p{Zl}|\p{Zp}/u;

function decoded(bytes) {
  try {
    const text = new TextDecoder('utf-8', { fatal: true, ignoreBOM: true }).decode(bytes);
    return HIDDEN.test(text) ? null : text;
  } catch {
    return null;
  }
}

// A hex dump: lines of offset, bytes in hex, and the same bytes as ASCII.
export function hexDump(bytes, perLine = 16) {
  const lines = [];
  for (let at = 0; at < bytes.length; at += perLine) {
    const part = bytes.subarray(at, at + perLine);
    const letters = Array.from(part, (b) => (b >= 0x20 && b <= 0x7e ? String.fromCharCode(b) : '.')).join('');
    lines.push(`${at.toString(16).padStart(4, '0')}  ${hex(part, ' ').padEnd(3 * perLine - 1)}  ${letters}`);
  }
  return lines.join('\n');
}

// { form, text }: 'text' if the bytes are UTF-8 that can be shown, else 'hex' with a dump, or 'empty'.
export function shown(bytes, perLine = 16) {
  if (bytes.length === 0) return { form: 'empty', text: '' };
  const text = decoded(bytes);
  return text === null ? { form: 'hex', text: hexDump(bytes, perLine) } : { form: 'text', text };
}

// The same on one line, for reports and comparisons.
export function onOneLine(bytes) {
  const { form, text } = shown(bytes);
  return form === 'hex' || text.includes('\n') ? `hex ${hex(bytes)}` : text;
}
