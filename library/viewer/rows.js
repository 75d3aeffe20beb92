// Lists of thousands of rows, of which the page has those in sight. All rows of a list have one height. A row that goes out of sight becomes
// one that comes into it: browsers take longer for new elements than for other words in those that are there.

// so many rows above and below those in sight are there, too
const OVER = 5;

/** Has an element these words alone. */
function setText(it, words) {
  const text = it.firstChild;
  if (!text || text !== it.lastChild || text.nodeType !== Node.TEXT_NODE) it.textContent = words;
  else if (text.data !== `${words}`) text.data = words;
}

/** Has a row, or a line of a table, these words in its cells, which are elements by that name. */
function setCells(row, tag, words) {
  while (row.children.length < words.length) row.append(element(tag));
  words.forEach((it, place) => setText(row.children[place], it));
}

/** A list in a box that scrolls. `fill` puts into a row what its place has. With `picks` rows can be picked, by a click and by keys. How far
 *  the box is scrolled, `top`, and how tall it is, `tall`, are kept: to ask has the browser lay the page out, where something changed
 *  before. */
function newRows(scroller, height, fill, picks) {
  const room = element("div", { className: "rows", role: "presentation" });
  const mark = picks ? "aria-selected" : "aria-current";
  const list = { scroller, room, height, fill, count: 0, at: -1, top: 0, tall: 0, rows: new Map(), free: [], mark };
  scroller.replaceChildren(room);
  const look = () => {
    lookAt(list);
    fillRows(list);
  };
  scroller.addEventListener("scroll", look, { passive: true });
  new ResizeObserver(look).observe(scroller);
  if (picks) {
    room.addEventListener("click", (event) => picks(Math.floor((event.clientY - room.getBoundingClientRect().top) / height)));
    scroller.addEventListener("keydown", (event) => moveRows(list, event, picks));
  }
  return list;
}

/** Has a row stand at a place. */
function placeRow(list, row, place) {
  list.fill(row, place);
  row.id = `${list.scroller.id}-${place}`;
  row.setAttribute("aria-setsize", list.count);
  row.setAttribute("aria-posinset", place + 1);
  row.style.top = `${place * list.height}px`;
  if (place === list.at) row.setAttribute(list.mark, "true");
  else row.removeAttribute(list.mark);
  row.classList.toggle("is-behind", place > list.at);
  list.rows.set(place, row);
}

/** The first row that is free, so that rows of one look stay in their order; or a new one. */
function freeRow(list) {
  if (list.free.length > 0) return list.free.shift();
  const row = element("div");
  list.room.append(row);
  return row;
}

/** Takes the rows away for which `isGone` holds, to be used again. */
function freeRows(list, isGone) {
  for (const [place, row] of list.rows) {
    if (!isGone(place)) continue;
    list.rows.delete(place);
    list.free.push(row);
  }
}

function lookAt(list) {
  list.top = list.scroller.scrollTop;
  list.tall = list.scroller.clientHeight;
}

/** Scrolls the list to there, or as far as it goes. */
function scrollRows(list, top) {
  const { scroller, height, count } = list;
  if (list.tall === 0) lookAt(list);
  const wanted = Math.max(0, Math.min(top, count * height - list.tall));
  if (wanted !== list.top) scroller.scrollTop = list.top = wanted;
}

/** Makes the rows that come into sight, and takes the others away. */
function fillRows(list) {
  const { height, count, rows, top, tall } = list;
  const from = Math.max(0, Math.floor(top / height) - OVER);
  const to = Math.min(count, Math.ceil((top + tall) / height) + OVER);
  freeRows(list, (place) => place < from || place >= to);
  for (let place = from; place < to; place++) if (!rows.has(place)) placeRow(list, freeRow(list), place);
  for (const row of list.free.splice(0)) row.remove();
}

/** The list has so many rows, and those from one on are others than before. */
function setRows(list, count, from = 0) {
  list.count = count;
  freeRows(list, (place) => place >= from);
  for (const row of list.rows.values()) row.setAttribute("aria-setsize", count);
  list.room.style.height = `${count * list.height}px`;
  scrollRows(list, list.top); // (a list with fewer rows is scrolled back)
  fillRows(list);
}

/** Marks a row, and brings it into sight. */
function markRow(list, place) {
  const { scroller, height } = list;
  if (list.tall === 0) lookAt(list);
  scrollRows(list, Math.max(Math.min(list.top, place * height), (place + 1) * height - list.tall));
  list.rows.get(list.at)?.removeAttribute(list.mark);
  list.at = place;
  fillRows(list);
  for (const [other, row] of list.rows) row.classList.toggle("is-behind", other > place);
  list.rows.get(place)?.setAttribute(list.mark, "true");
  if (list.mark === "aria-selected") scroller.setAttribute("aria-activedescendant", `${scroller.id}-${place}`);
}

/** Moves the mark by keys. */
function moveRows(list, event, picks) {
  const screen = Math.max(1, Math.floor(list.scroller.clientHeight / list.height) - 1);
  const steps = { ArrowUp: -1, ArrowLeft: -1, ArrowDown: 1, ArrowRight: 1, PageUp: -screen, PageDown: screen, Home: -list.count, End: list.count };
  if (!Object.hasOwn(steps, event.key) || event.altKey || event.ctrlKey || event.metaKey) return;
  event.preventDefault();
  picks(Math.min(Math.max(list.at + steps[event.key], 0), list.count - 1));
}
