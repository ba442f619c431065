// What is asked of servers. Only this file has the key, and it sends it to the page's own origin alone.
export const host = location.host;
export const site = `https://${host}`;
export const everybody = 'https://www.w3.org/ns/activitystreams#Public';
const KIND = 'application/activity+json';

/** Who is signed in: a name and an id, or null. */
export let me = null;
/** How many requests this page has made. */
export let asked = 0;
let key = null;

// ---- who is signed in

// The key is kept for this tab, or on this device if the member says so. What else is kept of a member is kept there too.
const storages = [sessionStorage, localStorage];
/** Where what is known of the member is kept. */
export let storage = null;

function become(name, digits, where) {
  me = {name, id: `${site}/users/${name}`};
  key = digits;
  storage = where;
}

/** Keeps a text for the member, and returns whether there was room for it. */
export function keep(name, text) {
  try {
    storage.setItem(name, text);
    return true;
  } catch {
    return false;
  }
}

/** Signs in who was signed in before. */
export function resume() {
  for (const where of storages) {
    const kept = JSON.parse(where.getItem('me') ?? 'null');
    if (kept) become(kept.name, kept.key, where);
  }
}

/** Signs in, once the server has shown the member's inbox to this key: 401 says that it is nobody's, 403 another's. */
export async function signIn(name, digits, stays) {
  await get(`/users/${name}/inbox`, digits);
  become(name, digits, storages[stays ? 1 : 0]);
  storage.setItem('me', JSON.stringify({name, key: digits}));
}

/** Signs out. Nothing of the member stays in the browser. */
export function leave() {
  for (const where of storages) where.clear();
  me = key = storage = null;
}

// ---- refusals

const words = {
  WrongKey: 'Nobody has this key.',
  NoKey: 'Sign in first.',
  NotOwner: "This is another member's.",
  NotFound: 'There is no such thing, or you may not see it.',
  Gone: 'It was deleted.',
  Blocked: 'One of you blocks the other.',
  NotPublic: 'Only what everybody may read can be boosted.',
  NotStanding: 'This was done already, or taken back.',
  KeyReused: 'This form was sent before with another text.',
  ActorFull: 'You have posted as often as a member can.',
  JournalFull: 'The server is full: nothing was posted.',
  KeeperFault: "The server's disk failed: try again. What you post is not posted twice.",
  BadText: 'This text is too long.',
  TooLong: 'This is too long.',
  TooManyRecipients: 'These are too many names.',
  SelfTarget: 'This is yourself.',
  BadIri: 'This is no address.',
  BadQuery: 'There is no such page.',
  NotObject: 'The server does not take this: it is no object.',
  BadContext: 'The server does not take this: its context is another.',
  NoType: 'The server does not take this: it has no type.',
  NoObject: 'The server does not take this: it says nothing of what it is about.',
  BadBody: 'The server could not read this.',
  BadShape: 'The server does not take this.',
  WrongType: 'The server does not take this kind of data.',
  BadHead: 'The server could not read this request.',
  NoLength: 'The server could not read this request: it has no length.',
  HeadTooLong: 'This request is too long.',
  NoCoding: 'The server could not read this request: its coding is another.',
};
const unheard = 'There was no answer: try again. What you post is not posted twice.';
// A 507 has no body.
const short = 'The server is short of memory: nothing was posted. Try again.';
const busy = 'You ask too often: wait a moment, and try again.';

/** What the server refused: its status, the name of the refusal, and a sentence for the member. */
export class Refused extends Error {
  constructor(status, told) {
    const name = told?.fault ?? told?.error;
    super(words[name] ?? (status === 429 ? busy : status === 413 ? words.TooLong : status === 507 ? short
      : status >= 502 ? unheard
      : `The server refused this (${[status, name].filter(Boolean).join(' ')}).`));
    this.status = status;
    this.name = name;
  }
}

// ---- requests

/** The path of an id of this server, or null if it is of another one. */
export function pathOf(id) {
  try {
    const url = new URL(id, site);
    return url.origin === site && url.pathname.startsWith('/users/') ? url.pathname + url.search : null;
  } catch {
    return null;
  }
}

async function ask(path, digits, more = {}) {
  const signed = digits ? {Authorization: `Bearer ${digits}`} : {};
  const how = {cache: 'no-store', credentials: 'omit', redirect: 'error', ...more, headers: {Accept: KIND, ...signed, ...more.headers}};
  for (let turn = 1; ; turn++) {
    asked++;
    const reply = await fetch(path, how).catch(cause => { throw new Error(unheard, {cause}); });
    // The proxy limits how often one address asks.
    if (reply.status !== 429 || more.method || turn === 5) return reply;
    await new Promise(wake => setTimeout(wake, 1000 * turn));
  }
}

/** The document of this id, or the Tombstone of what was deleted. */
export async function get(id, digits = key) {
  const path = pathOf(id);
  if (!path) throw new Refused(0, {error: 'of another server'});
  const reply = await ask(path, digits);
  const told = await reply.json().catch(() => null);
  if (reply.ok || (reply.status === 410 && told?.type === 'Tombstone')) return told;
  throw new Refused(reply.status, told);
}

// The same body has the same key until it is answered: a second click, or a second try after a lost reply, posts nothing more.
const pending = new Map();

/** Posts an activity, or an object that the server wraps in a Create, and returns its id. */
export async function post(activity) {
  const body = JSON.stringify(activity);
  const repeat = pending.get(body) ?? crypto.randomUUID();
  pending.set(body, repeat);
  const reply = await ask(`/users/${me.name}/outbox`, key, {method: 'POST', body, headers: {'Content-Type': KIND, 'Idempotency-Key': repeat}});
  if (reply.status < 500) pending.delete(body);
  if (!reply.ok) throw new Refused(reply.status, await reply.json().catch(() => null));
  return reply.headers.get('Location');
}

// ---- how long a post is

/** The longest body that a server of this kind takes, in bytes. */
export const LONGEST = 262144;
const CONTEXT = 'https://www.w3.org/ns/activitystreams', LAST = 4294967295, MOMENT = '2000-01-01T00:00:00Z';
const list = value => Array.isArray(value) ? value : [value];
/** An id as the server writes it (URL Standard, 4.5), or longer: some browsers escape a `|` in a path. */
const normal = id => URL.canParse(id) ? new URL(id).href : id;

/** The bytes of the Create in which other servers get a note of mine: exactly, but for its number, which is counted with ten digits. */
export function sizeOf({id = `${me.id}/o/${LAST}`, to, cc, audience, tag, inReplyTo, url, updated, ...texts}) {
  const {type, content, summary, name} = texts;
  const ids = value => value?.length ? [...new Set(list(value).map(normal))] : undefined;
  const people = {to: ids(to), cc: ids(cc), audience: ids(audience)};
  const tags = tag?.length ? tag.map(({href, name}) => ({type: 'Mention', href: normal(href), name})) : undefined;
  const object = {
    type, id, attributedTo: me.id, ...people, content, summary, name, tag: tags, inReplyTo: inReplyTo && normal(inReplyTo),
    url: url && normal(url), published: MOMENT, updated: updated && MOMENT, likes: `${id}/likes`, shares: `${id}/shares`,
  };
  const create = {'@context': CONTEXT, type: 'Create', id, actor: me.id, ...people, object, published: MOMENT};
  return new TextEncoder().encode(JSON.stringify(create)).length;
}

/** The note, if other servers take it. They would refuse a longer one, and nobody would know. */
export function fitting(note) {
  const size = sizeOf(note), told = number => number.toLocaleString('en');
  if (size <= LONGEST) return note;
  const names = size - sizeOf({...note, to: [], cc: [], audience: [], tag: []});
  throw new Error(`Not posted: other servers take ${told(LONGEST)} bytes, and this note would have ${told(size)}, ${told(names)} of them `
    + 'for its names. Leave out names, or write less.');
}

// ---- names

/** The ids of the members whom the operator lists, the newest first, or none if there is no list. */
export async function members() {
  const reply = await ask('/members.json', null, {headers: {Accept: 'application/json'}}).catch(() => null);
  const told = reply?.ok ? await reply.json().catch(() => null) : null;
  const names = Array.isArray(told) ? told.filter(name => typeof name === 'string' && /^[a-z0-9_]+$/.test(name)) : [];
  return names.map(name => `${site}/users/${name}`).reverse();
}

/**
 * `@name@host` of an actor's id in the form of this server. An id of another form is shown as it is, after its host if it has a user
 * name, which may look like another host.
 */
export function handle(id) {
  const found = /^https:\/\/([a-z0-9.:-]+)\/users\/([a-z0-9_]+)$/.exec(id ?? '');
  if (found) return found[1] === host ? `@${found[2]}` : `@${found[2]}@${found[1]}`;
  const url = URL.canParse(id) ? new URL(id) : {};
  return url.username || url.password ? `${url.host}: ${id}` : String(id);
}

/** The member whose activity or object this is, as far as the id shows it. */
export const ownerOf = id => /^https:\/\/[a-z0-9.:-]+\/users\/[a-z0-9_]+(?=$|\/)/.exec(id ?? '')?.[0] ?? id;

/** The owner and the name of a board of a member here, by its id, or null. */
export function boardOf(id) {
  const [, there, owner, name] = /^https:\/\/([a-z0-9.:-]+)(\/users\/[a-z0-9_]+)\/c\/([a-z0-9_]{1,30})$/.exec(id ?? '') ?? [];
  return there === host ? {owner: site + owner, name} : null;
}

/** The id of `@name` or `@name@host`, by WebFinger (RFC 7033), for which no key is needed. */
export async function find(text) {
  const found = /^@?([a-zA-Z0-9_.-]+)(?:@([a-z0-9.:-]+))?$/.exec(text.trim());
  if (!found) throw new Error(`“${text}” is no name: write @name, or @name@host.`);
  const name = found[1], there = found[2] ?? host;
  const path = `/.well-known/webfinger?resource=${encodeURIComponent(`acct:${name}@${there}`)}`;
  const reply = await ask(there === host ? path : `https://${there}${path}`, null, {headers: {Accept: 'application/jrd+json'}}).catch(() => null);
  if (!reply) throw new Error(`${there} cannot be asked: it does not answer, or it has no such member, or this page may not ask it.`);
  if (!reply.ok) throw new Error(`Nobody is called @${name}@${there}.`);
  const told = await reply.json().catch(() => null);
  const id = told?.links?.find?.(link => link.rel === 'self')?.href;
  if (!URL.canParse(id) || new URL(id).origin !== `https://${there}`) throw new Error(`${there} says nothing of @${name}.`);
  return id;
}
