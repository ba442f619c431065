// Collections by position, and an index of what the member did and got.
//
// The server tells what happened and not how things are: whether a Follow is still waiting is known only to who reads all that
// came after it. So a few fields of each activity are kept in the browser, and the logs are read on from where they ended.
import * as server from './server.js';
import {plain} from './safe.js';

const PAGE = 20;
/** How many pages are asked for at a time when a log is read whole. */
const SIDE_BY_SIDE = 6;
/** How many of the newest ids are kept, to find the end of what was read if items before it came or went. */
const RECENT = 200;
/** How many items are looked through for that. */
const SEARCHED = 200;
/** What is kept of activities: an index of another form is read anew. */
const FORM = 2;
/** The length of the beginning of a note that is kept, and how many items are read without telling how far it is. */
const QUOTE = 80, LONG = 400;

const pageOf = position => Math.floor(position / PAGE);
const idOf = item => item?.id ?? item;

/** A collection. The item at position 0 is the oldest, and page K has the items from 20 * K on, the newest first. */
export class Collection {
  constructor(id) {
    this.id = id;
    this.length = null;
    this.pages = new Map();
  }

  /** Asks how many items there are, if that is not known. */
  async open() {
    this.length ??= (await server.get(this.id)).totalItems;
    return this;
  }

  /** A page's document, or null if there is no such page. It is asked for once. */
  page(number) {
    if (!this.pages.has(number)) {
      const asked = server.get(`${this.id}?page=${number}`).catch(refusal => {
        this.pages.delete(number);
        if (refusal.status === 404) return null;
        throw refusal;
      });
      this.pages.set(number, asked);
    }
    return this.pages.get(number);
  }

  /** The item at a position, or null if there is none. */
  async at(position) {
    const items = (await this.page(pageOf(position)))?.orderedItems ?? [];
    return items[items.length - 1 - position % PAGE] ?? null;
  }

  /** The items of the newest page. */
  async newestPage() {
    return (await this.page(Math.max(0, pageOf((await this.open()).length - 1))))?.orderedItems ?? [];
  }

  /** When the item at a position came, at the latest. What is older on its page came before it, whatever date another server gave it. */
  async moment(position) {
    const items = (await this.page(pageOf(position)))?.orderedItems ?? [];
    return items.slice(items.length - 1 - position % PAGE).map(item => String(item.published ?? '')).sort().at(-1);
  }

  /** Gives one item after the other, with its moment, from the newest on, and null at the end. */
  walk() {
    let position = null;
    return async () => {
      position ??= (await this.open()).length;
      if (position === 0) return null;
      position--;
      const item = await this.at(position);
      return item && {item, moment: await this.moment(position)};
    };
  }

  /** Whether an item is on one of the newest pages, of which at most so many are read. */
  async has(item, pages) {
    const newest = pageOf((await this.open()).length - 1);
    for (let number = newest; number >= 0 && number > newest - pages; number--) {
      if ((await this.page(number))?.orderedItems.includes(item)) return true;
    }
    return false;
  }
}

/** Tells how far a long log was read: {told(read, all)}. */
export const progress = {told: () => {}};

/** The member's inbox or outbox, with what is kept of each activity by `brief`, which returns null for what is not kept. */
class History extends Collection {
  constructor(box, brief) {
    super(`${server.me.id}/${box}`);
    this.place = `history ${box}`;
    this.brief = brief;
    const kept = JSON.parse(server.storage.getItem(this.place) ?? 'null');
    this.kept = kept?.form === FORM ? kept : {form: FORM, length: 0, recent: [], acts: []};
    this.length = this.kept.length || null;
    this.newest = this.kept.recent[0];
  }

  /** Asks what came since: one request if little came. What was read before is asked for again, since objects change. */
  async renew() {
    const known = this.length, number = pageOf(known - 1);
    this.pages.clear();
    if (known) {
      const top = await this.page(number);
      const same = top && idOf(await this.at(known - 1)) === this.newest;
      if (same && !top.prev) return this.end(top, number);
      if (!same) this.pages.clear();
    }
    const last = Math.max(0, pageOf((await server.get(this.id)).totalItems - 1));
    return this.end(await this.page(last), last);
  }

  end(top, number) {
    this.length = number * PAGE + (top?.orderedItems.length ?? 0);
    this.newest = idOf(top?.orderedItems[0]);
    return this;
  }

  /** What is kept of all activities, the oldest first, up to date. */
  acts() {
    this.reading ??= this.read().finally(() => { this.reading = null; });
    return this.reading;
  }

  async read() {
    await this.renew();
    const {kept} = this, known = kept.length;
    const end = known > 0 && known <= this.length ? idOf(await this.at(known - 1)) : undefined;
    if (end !== kept.recent[0] && !await this.mend()) Object.assign(kept, {length: 0, recent: [], acts: []});
    const begun = kept.length;
    for (let turn = 1; kept.length < this.length; turn++) {
      await this.readPages(pageOf(kept.length));
      if (turn % 10 === 0) this.save();
      if (this.length - begun > LONG) progress.told(kept.length, this.length);
    }
    if (end !== kept.recent[0]) this.save();
    return kept.acts;
  }

  /** Reads some pages on from one, of which the first items may be known. */
  async readPages(first) {
    const {kept} = this, last = Math.min(first + SIDE_BY_SIDE - 1, pageOf(this.length - 1));
    for (let number = first; number <= last; number++) this.page(number).catch(() => null);
    for (let number = first; number <= last; number++) {
      const items = [...(await this.page(number))?.orderedItems ?? []].reverse().slice(kept.length % PAGE);
      if (!items.length) throw new Error('The log changed while it was read: try again.');
      this.take(items);
      kept.length += items.length;
      if (last < pageOf(this.length - 1)) this.pages.delete(number);
    }
  }

  take(items) {
    const {kept} = this;
    kept.recent = [...items.map(idOf).reverse(), ...kept.recent].slice(0, RECENT);
    kept.acts.push(...items.map(this.brief).filter(act => act));
  }

  /** Finds the end of what was read, after a Block took items away or gave them back, or a delivery came to an earlier position. */
  async mend() {
    const known = new Set([...this.kept.recent, ...this.kept.acts.map(idOf)]), enough = Math.min(PAGE, this.kept.length), seen = [];
    for (let run = 0; run < enough; run = known.has(seen.at(-1)[0]) ? run + 1 : 0) {
      if (seen.length === Math.min(this.length, SEARCHED)) return false;
      const item = await this.at(this.length - 1 - seen.length);
      if (!item) return false;
      seen.push([idOf(item), item]);
    }
    this.take(seen.filter(([id]) => !known.has(id)).map(([, item]) => item).reverse());
    this.kept.length = this.length;
    this.kept.recent = [...new Set([...seen.map(([id]) => id), ...this.kept.recent])].slice(0, RECENT);
    return true;
  }

  // A browser keeps some millions of characters. With no room the index lasts as long as this page is open.
  save() {
    if (!server.keep(this.place, JSON.stringify(this.kept))) server.storage.removeItem(this.place);
  }
}

// ---- what is kept of an activity

const list = value => Array.isArray(value) ? value : value ? [value] : [];
const about = ({id, type, actor, object, published}) => ({id, type, actor, object: idOf(object), published});
/** The beginning of a note, or of its content warning. */
function quote(note) {
  const text = note?.summary ? `[${note.summary}]` : plain(note?.content ?? note?.name ?? '');
  return text.length > QUOTE ? `${text.slice(0, QUOTE)}…` : text;
}
const noted = act => ({...about(act), text: quote(act.object), ...act.object?.inReplyTo && {inReplyTo: act.object.inReplyTo}});
const changes = new Set(['Accept', 'Announce', 'Block', 'Delete', 'Follow', 'Like', 'Reject', 'Undo']);
const pins = new Set(['Add', 'Remove']);
const isMine = id => String(id).startsWith(`${server.me.id}/`);
const namesMe = act => [...list(act.to), ...list(act.cc)].includes(server.me.id);

function briefOfMine(act) {
  if (pins.has(act.type)) return {...about(act), target: act.target};
  return act.type === 'Create' || act.type === 'Update' ? noted(act) : changes.has(act.type) ? about(act) : null;
}

function briefOfGot(act) {
  if (act.type === 'Create') return act.object?.inReplyTo || namesMe(act) ? {...noted(act), named: namesMe(act)} : null;
  if (act.type === 'Update') return noted(act);
  if (act.type === 'Announce' && !isMine(idOf(act.object))) return null;
  return changes.has(act.type) ? about(act) : null;
}

let boxes = null;
function opened() {
  if (boxes?.me !== server.me) boxes = {me: server.me, outbox: new History('outbox', briefOfMine), inbox: new History('inbox', briefOfGot)};
  return boxes;
}
export const outbox = () => opened().outbox;
export const inbox = () => opened().inbox;

// ---- how things are

/**
 * My activities of this type about this that stand, by what I did: of Likes, Announces and Blocks the first alone, since a second one has no
 * effect while the first stands; of Follows all since the last end. An Undo of one Follow ends all of them, and so does a Block.
 */
export function standing(mine, type, object) {
  let stand = [];
  for (const act of mine) {
    if (act.type === type && act.object === object) {
      if (type === 'Follow' || !stand.length) stand.push(act);
    } else if (act.type === 'Undo' && stand.some(one => one.id === act.object)) {
      stand = [];
    } else if (type === 'Follow' && act.type === 'Block' && act.object === object) {
      stand = [];
    }
  }
  return stand;
}

/** Takes back what stands of this type about this. */
export async function takeBack(type, object) {
  const [act] = standing(await outbox().acts(), type, object);
  if (act) await server.post({type: 'Undo', object: act.id});
}

/** What is on a board of mine: the Adds of each id since its last Remove, and the ids in the order in which they were put there. */
export function pinned(mine, board) {
  const found = new Map();
  for (const {type, target, object, id} of mine.filter(act => pins.has(act.type) && act.target === board && act.object)) {
    if (type === 'Remove') found.delete(object);
    else found.set(object, [...found.get(object) ?? [], id]);
  }
  return found;
}

/** The ids of my boards that are not empty, in the order in which they were begun. */
export function boards(mine) {
  const targets = new Set(mine.filter(act => act.type === 'Add').map(act => act.target));
  return [...targets].filter(id => server.boardOf(id)?.owner === server.me.id && pinned(mine, id).size > 0);
}

/**
 * Takes an id off a board of mine, if it is there. The Remove goes to all whom the Adds name: for whoever does not see it the id stays. Hidden
 * recipients are in no document, so nothing is put on a board for them.
 */
export async function takeOff(object, board) {
  const adds = pinned(await outbox().acts(), board).get(object) ?? [];
  if (!adds.length) return;
  const documents = await Promise.all(adds.map(id => server.get(id)));
  const named = field => [...new Set(documents.flatMap(add => list(add[field])))];
  await server.post({type: 'Remove', object, target: board, to: named('to'), cc: named('cc'), audience: named('audience')});
}

/** Puts an id at the top of a board of mine. Where it is there it would stay where it is, so it is taken off first. */
export async function putOn(object, board, people) {
  await takeOff(object, board);
  await server.post({type: 'Add', object, target: board, ...people});
}

/** Those whom I block. */
export function blocked(mine) {
  const objects = new Set(mine.filter(act => act.type === 'Block').map(act => act.object));
  return [...objects].filter(id => standing(mine, 'Block', id).length > 0);
}

/**
 * What somebody is to me: `blocked`, `followed`, `asked`, `refused`, `over` or `none`, with the activity of mine that can be undone. Of a member
 * here the list of followers tells, which shows me to myself; of another server's what it delivered does.
 */
export async function relation(id, mine) {
  const [block] = standing(mine, 'Block', id), follows = standing(mine, 'Follow', id), follow = follows.at(-1);
  if (block) return {is: 'blocked', act: block};
  if (!follow) return {is: 'none'};
  const isAnswer = act => act.actor === id && (act.type === 'Accept' || act.type === 'Reject') && follows.some(one => one.id === act.object);
  const last = (await inbox().acts()).findLast(isAnswer);
  const here = server.pathOf(id) && new Collection(`${id}/followers`);
  if (here ? await here.has(server.me.id, 3) : last?.type === 'Accept') return {is: 'followed', act: follow};
  if (last?.type === 'Reject' && last.object === follow.id) return {is: 'refused', act: follow};
  return {is: last?.type === 'Accept' ? 'over' : 'asked', act: follow};
}

/** The Follows of me that wait for an answer, the newest of each that asked. */
export async function waiting(mine) {
  const got = await inbox().acts();
  const asked = new Map();
  for (const act of got) {
    const follows = asked.get(act.actor) ?? [];
    if (act.type === 'Follow' && act.object === server.me.id) asked.set(act.actor, [...follows, act]);
    else if (act.type === 'Undo' && follows.some(follow => follow.id === act.object)) asked.delete(act.actor);
  }
  for (const act of mine.filter(act => act.type === 'Block' && asked.has(act.object))) {
    asked.set(act.object, asked.get(act.object).filter(follow => !(follow.published <= act.published)));
  }
  const answers = new Map(mine.filter(act => act.type === 'Accept' || act.type === 'Reject').map(act => [act.object, act.type]));
  const isWaiting = follows => {
    const last = follows.findLast(follow => answers.has(follow.id));
    return follows.length > 0 && follows.at(-1) !== last && answers.get(last?.id) !== 'Accept';
  };
  return [...asked.values()].filter(isWaiting).map(follows => follows.at(-1));
}

/** The beginnings of notes by their ids, as they are now. Nobody changes another's. */
export function quotes(acts) {
  const found = new Map();
  for (const {type, actor, object, text} of acts) {
    const known = found.get(object);
    if (type === 'Create' && !known) found.set(object, {actor, text});
    else if (type === 'Update' && known?.actor === actor) known.text = text;
    else if (type === 'Delete' && known?.actor === actor) known.text = 'deleted';
  }
  return found;
}

/** The activities that answered a note, of those that came to me and my own, the oldest first. */
export async function answers(id, mine) {
  const found = [...mine, ...await inbox().acts()].filter(act => act.type === 'Create' && act.inReplyTo === id);
  const when = act => String(act.published ?? '');
  return found.sort((one, other) => when(one) < when(other) ? -1 : when(one) > when(other) ? 1 : 0);
}
