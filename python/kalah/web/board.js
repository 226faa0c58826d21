// Draws a board, and the way of the seeds of a move, for the pages of the game and of the rules.
"use strict";

const NAMES = ["South", "North"];

// Returns the two sides of a line, that of the player to move first, and the end of it that names the rule.
function read(line) {
  const [, houses, store, others, other, rule] = /^([0-9,]+)\/([0-9]+) ([0-9,]+)\/([0-9]+)( e)?$/.exec(line);
  const side = (cells, seeds) => ({ houses: cells.split(",").map(Number), store: Number(seeds) });
  return { sides: [side(houses, store), side(others, other)], rule: rule || "" };
}

// Returns South's side of a position and North's, if this player is first in its line.
function sidesOf({ line, player }) {
  const { sides } = read(line);
  return player ? [sides[1], sides[0]] : sides;
}

// Returns where the seeds of a house fall: cells of the lap, in order. A cell has a player, and a house, which is 0 for the store. If the
// move captures, `captured` has the two houses, and how many seeds they hold.
function sow({ line, player }, house) {
  const { sides: [own, other], rule } = read(line), m = own.houses.length;
  const lap = [...own.houses, own.store, ...other.houses], way = [], cellOf = (place) => {
    const side = place > m ? 1 - player : player;
    return { player: side, house: place === m ? 0 : place > m ? place - m : place + 1 };
  };
  let place = house - 1;
  const seeds = lap[place];
  lap[place] = 0;
  for (let sown = 0; sown < seeds; sown += 1) {
    place = (place + 1) % lap.length;
    lap[place] += 1;
    way.push(cellOf(place));
  }
  const across = 2 * m - place, taken = place < m && lap[place] === 1 ? lap[across] : 0;
  const captures = place < m && lap[place] === 1 && (taken > 0 || rule === " e");
  return { way, captured: captures ? { cells: [cellOf(place), cellOf(across)], seeds: taken + 1 } : null };
}

function made(name, text, more = {}) {
  const one = Object.assign(document.createElement(name), more);
  one.textContent = text;
  return one;
}

const signed = (value) => (value > 0 ? `+${value}` : String(value));
const counted = (number, noun) => `${number} ${noun}${number === 1 ? "" : "s"}`;
const cellId = (player, house) => (house ? `house-${player}-${house}` : `store-${player}`);

// Puts the cells of a board into an element: North's store, North's houses from the last on, South's store, South's houses.
// `choose` is called with the player and the house that is clicked; without it nothing can be.
function layBoard(board, m, choose) {
  const cell = (player, house) => {
    const one = made(choose && house ? "button" : "div", "", { className: house ? "house" : player ? "store" : "store last" });
    if (choose) one.id = cellId(player, house);
    if (choose && house) Object.assign(one, { type: "button", onclick: () => choose(player, house) });
    else one.setAttribute("role", "img");
    one.append(made("small", house || ""), made("b", ""), made("span", "", { className: "worth" }), made("i", "", { className: "sown" }));
    return one;
  };
  const houses = (player) => Array.from({ length: m }, (_, place) => cell(player, place + 1));
  board.style.setProperty("--houses", m);
  board.replaceChildren(cell(1, 0), ...houses(1).reverse(), cell(0, 0), ...houses(0));
}

// Returns the element of a cell.
function cellOn(board, player, house) {
  const m = (board.children.length - 2) / 2;
  return board.children[player ? (house ? m + 1 - house : 0) : m + 1 + house];
}

// Shows a position on a board that is laid. `by` is the move that led to it, with the position before; `values` are by house.
function fillBoard(board, position, { by = null, values = null, canMove = () => false } = {}) {
  const best = values ? Math.max(...Object.values(values)) : 0;
  const { way, captured } = by ? sow(by.from, by.house) : { way: [], captured: null };
  sidesOf(position).forEach((side, player) => [side.store, ...side.houses].forEach((seeds, house) => {
    const cell = cellOn(board, player, house), value = player === position.player && house ? values?.[house] : undefined;
    const sown = way.filter((one) => one.player === player && one.house === house).length;
    const isOf = (one) => one.player === player && one.house === house;
    const [, number, worth, badge] = cell.children;
    number.textContent = seeds;
    worth.textContent = value === undefined ? "" : signed(value);
    badge.textContent = sown ? `+${sown}` : "";
    cell.classList.toggle("best", value !== undefined && value === best);
    cell.classList.toggle("moved", Boolean(by) && house > 0 && isOf({ player: by.from.player, house: by.house }));
    cell.classList.toggle("sown-last", way.length > 0 && isOf(way[way.length - 1]));
    cell.classList.toggle("captured", Boolean(captured?.cells.some(isOf)));
    const name = house ? `${NAMES[player]}, house ${house}: ${counted(seeds, "seed")}` : `${NAMES[player]}, store: ${seeds}`;
    cell.setAttribute("aria-label", value === undefined ? name : `${name}, worth ${signed(value)}`);
    if (cell.onclick) cell.setAttribute("aria-disabled", String(!canMove(player, house)));
  }));
  return way;
}

// Lets the seeds of a way fall one after another, unless the system's setting is for less motion.
function animate(board, way) {
  if (matchMedia("(prefers-reduced-motion: reduce)").matches) return;
  const step = Math.min(110, 1200 / Math.max(1, way.length));
  way.forEach(({ player, house }, number) => {
    const drop = [{ opacity: 0, transform: "translateY(-1.2em) scale(1.6)" }, { opacity: 1, transform: "none" }];
    cellOn(board, player, house).lastChild.animate(drop, { duration: 260, delay: number * step, fill: "backwards" });
  });
}

// Returns the middle of a cell on its board.
function middle(board, player, house) {
  const cell = cellOn(board, player, house);
  return { x: cell.offsetLeft + cell.offsetWidth / 2, y: cell.offsetTop + cell.offsetHeight / 2 };
}
