// The page of a game: it is played, opened, looked at and tried otherwise, with what each move is worth.
"use strict";

const element = (id) => document.getElementById(id);
const { version: VERSION, start: START } = document.body.dataset;
const MOST_SEEDS = 31, AT_ONCE = 2, LONGEST_LINE = 14, LETTERS = "ABCDEF", CHANCE = 0.25, NORTH_FIRST = "&first=North";
const RULES = {
  "": "Classic rule: a last seed that falls into an empty house of one's own captures if the house across has seeds.",
  " e": "Empty-capture rule: a last seed that falls into an empty house of one's own is captured even if the house across is empty.",
};
const STRENGTHS = {
  best: "The solver always makes a best move. Above 31 seeds it looks 4 moves ahead.",
  some: "The solver makes best moves, but about every fourth of its moves is a worse one, if there is one.",
  ahead: "The solver looks 2 moves ahead, and no further.",
};

// THE GAME. A place is a position of a game: its line, who moves there, and `by`, the move that led to it: the place before, the house,
// and what comes then. A state has the places of the game, those of a variation from one of them on, which of these two lines is shown,
// and at which place. A state is never changed: another one takes its place, and Undo takes it back.
let state = null, past = [], future = [];

const lineOf = ({ game, trial, isTrial }) => (isTrial ? [...game.slice(0, trial.from + 1), ...trial.places] : game);
const placeOf = (one) => lineOf(one)[one.at];
const now = () => placeOf(state);

function after(place, { house, position, word }, guessed = "") {
  const player = word === "turn" ? 1 - place.player : place.player;
  return { line: position, player, by: { from: place, player: place.player, house, word, guessed } };
}

function change(next) {
  past.push(state);
  future = [];
  state = next;
  wrong("");
  show();
}

// Shows another place of the game or of the variation.
function go(at, isTrial = state.isTrial) {
  state = { ...state, isTrial, at: Math.max(0, Math.min(at, lineOf({ ...state, isTrial }).length - 1)) };
  wrong("");
  show();
}

// Makes a move at the place that is shown. If another one follows there, a variation begins, and the game stays.
function play(house, guessed) {
  const place = now(), { game, trial, isTrial, at } = state, line = lineOf(state);
  const move = about(place.line).moves?.moves?.find((one) => one.house === house);
  if (!move) return;
  if (line[at + 1]?.by.house === house) return go(at + 1);
  const isShared = !isTrial || at <= trial.from, reached = after(place, move, guessed);
  if (isShared && game[at + 1]?.by.house === house) go(at + 1, false);
  else if (isShared && at < game.length - 1) change({ game, trial: { from: at, places: [reached] }, isTrial: true, at: at + 1 });
  else if (isShared) change({ game: [...game, reached], trial, isTrial: false, at: at + 1 });
  else change({ game, trial: { ...trial, places: [...trial.places.slice(0, at - trial.from), reached] }, isTrial, at: at + 1 });
}

// A person has chosen a house.
function choose(player, house) {
  const place = now(), { moves } = about(place.line);
  if (!moves || moves.is_over || player !== place.player || isSolversTurn(state)) return;
  if (!moves.moves.some((one) => one.house === house)) return wrong(`house ${house} can't be moved`);
  if (mode() === "guess" && !guesses.has(place.line)) guesses.set(place.line, house);
  play(house);
}

// Takes back what was done last, or does it again, up to where a person is to move.
function undo() {
  const to = past.findLastIndex((one) => !isSolversTurn(one));
  if (to < 0) return;
  future.push(state, ...past.slice(to + 1).reverse());
  state = past[to];
  past.length = to;
  wrong("");
  show();
}

function redo() {
  while (future.length) {
    past.push(state);
    state = future.pop();
    if (!isSolversTurn(state)) break;
  }
  wrong("");
  show();
}

// QUESTIONS. What the server answers is kept with the line that was asked, so a late answer can't come to another position.
const known = new Map(), pending = new Set();
let isStale = false;

function about(line) {
  if (!known.has(line)) known.set(line, { failed: {} });
  return known.get(line);
}

async function ask(question, body) {
  let reply, answer;
  try {
    reply = await fetch(`/${question}`, { method: "POST", body });
    answer = await reply.json();
  } catch {
    throw new Error("the server does not answer");
  }
  if (!reply.ok) throw new Error(answer.error);
  if (reply.headers.get("Kalah-Version") === VERSION) return answer;
  isStale = true;
  throw new Error("this page was kept from another version of kalah: load it again");
}

// Asks a question of a line, if its answer isn't known. Then the page is shown again.
function need(question, line) {
  const it = about(line), key = `${question} ${line}`;
  if (it[question] || it.failed[question] || pending.has(key)) return;
  pending.add(key);
  ask(question, line).then((answer) => (it[question] = answer), (why) => (it.failed[question] = why.message)).finally(() => {
    pending.delete(key);
    show();
  });
}

// Asks what is unknown: first of the place that is shown, then the values of all others, from the end on.
function askAll() {
  const { line } = now(), { moves } = about(line), isAsked = (one) => isSolvable(one) && !about(one).moves?.is_over;
  const busy = () => [...pending].filter((key) => key.startsWith("values")).length;
  need("moves", line);
  if (mode() === "hidden") return;
  if (!isSolvable(line)) need("best", line);
  if (moves && isAsked(line) && busy() < AT_ONCE) need("values", line);
  if (moves && isAsked(line) && isRevealed(line) && element("lines").open)
    for (const { position, word } of moves.moves) if (word !== "over") need("line", position);
  for (const other of [...state.game, ...lineOf(state)].reverse()) if (isAsked(other.line) && !busy()) need("values", other.line);
}

function tryAgain() {
  if (isStale) location.reload();
  for (const it of known.values()) it.failed = {};
  wrong("");
  show();
}

// VALUES. They are shown, or only those of places where a person has guessed, or none.
const guesses = new Map();
const mode = () => element("values").value;
const isLate = (why) => why.startsWith("too large here");
const seedsIn = (line) => read(line).sides.flatMap(({ houses }) => houses).reduce((sum, seeds) => sum + seeds, 0);
const isSolvable = (line) => seedsIn(line) <= MOST_SEEDS;
const isRevealed = (line) => mode() === "shown" || (mode() === "guess" && guesses.has(line));
const valuesOf = (line) => (isRevealed(line) && about(line).values?.by_house) || null;
const bestOf = (values) => Math.max(...Object.values(values));
const bestHouse = (values) => Number(Object.keys(values).find((house) => values[house] === bestOf(values)));

// Returns the value of the move that led to a place, and what it lost, if they are known and shown.
function worthOf({ by }) {
  const values = by && valuesOf(by.from.line);
  return values && { value: values[by.house], lost: bestOf(values) - values[by.house], best: bestHouse(values), all: values };
}

// Returns South's margin of best play at a place, if it is known and shown, or of the game that is over there.
function marginOf(place) {
  const [south, north] = sidesOf(place).map(({ houses, store }) => houses.reduce((sum, seeds) => sum + seeds, store));
  if (about(place.line).moves?.is_over) return south - north;
  const values = valuesOf(place.line);
  return values && (place.player ? -bestOf(values) : bestOf(values));
}

// Returns how many guesses were best moves, of those where not every move is one.
function scoreOf() {
  const guessed = [...guesses].map(([line, house]) => ({ house, values: about(line).values?.by_house || {} }));
  const counted = guessed.filter(({ values }) => new Set(Object.values(values)).size > 1);
  return { all: counted.length, right: counted.filter(({ values, house }) => values[house] === bestOf(values)).length };
}

// THE SOLVER. It moves where it is to move, at the end of the line that is shown, once the seeds of the last move have fallen.
const isSolver = (player) => element("solver").value === String(player);

function isSolversTurn(one) {
  const place = placeOf(one);
  return one.at === lineOf(one).length - 1 && isSolver(place.player) && !about(place.line).moves?.is_over;
}

// Returns the answer that names the solver's house, if it is known, and asks for it if not.
function solversMove(place) {
  const it = about(place.line), strength = element("strength").value, question = strength === "ahead" ? "ahead" : "best";
  need(question, place.line);
  if (isLate(it.failed.best || "")) {
    need("ahead", place.line);
    return it.ahead && { ...it.ahead, guessed: `best play takes too long here; ${it.ahead.guessed}` };
  }
  if (strength !== "some" || !isSolvable(place.line)) return it[question];
  need("values", place.line);
  if (!it.values || !it.best) return undefined;
  const values = it.values.by_house, worse = Object.keys(values).filter((house) => values[house] < bestOf(values));
  place.drawn ??= Math.random();
  return place.drawn < CHANCE && worse.length ? { house: Number(worse[Math.floor(place.drawn / CHANCE * worse.length)]) } : it.best;
}

async function moveForSolver() {
  const place = now();
  if (!isSolversTurn(state) || !about(place.line).moves || !solversMove(place)) return;
  await Promise.allSettled(element("board").getAnimations({ subtree: true }).map((one) => one.finished));
  if (place !== now() || !isSolversTurn(state)) return;
  const move = solversMove(place);
  if (move) play(move.house, move.guessed);
}

// WHAT IS SHOWN.
let drawn = null;

function show() {
  if (!state) return;
  askAll();
  draw();
  moveForSolver();
}

function draw() {
  const place = now(), { moves, failed } = about(place.line), board = element("board"), m = read(place.line).sides[0].houses.length;
  const isOpen = (player) => player === place.player && !isSolversTurn(state);
  const canMove = (player, house) => isOpen(player) && Boolean(moves?.moves?.some((one) => one.house === house));
  if (board.children.length !== 2 * m + 2) layBoard(board, m, choose);
  const way = fillBoard(board, place, { by: place.by, values: isSolversTurn(state) ? null : valuesOf(place.line), canMove });
  if (drawn !== place && drawn && place.by) animate(board, way);
  drawn = place;
  drawArrow(place);
  say("said", `${saidOfMove(place)}${saidOfTurn(place)}`);
  drawComment(place);
  say("remark", remarkOf(place));
  const why = Object.values(failed).find((text) => !isLate(text));
  if (why) wrong(why, true);
  drawControls();
  drawMoves();
  drawWorst();
  drawCurve();
  drawLines(place);
  const address = `#${addressOf(state).replaceAll(" ", "%20")}`;
  if (location.hash !== address) history.replaceState(null, "", address);
}

// Says a text, once: a screen reader says again what is written again.
function say(id, text) {
  if (element(id).textContent !== text) element(id).textContent = text;
}

const ENDS = { again: " and moves again. ", turn: ". ", over: ". " };

function saidOfMove({ by }) {
  if (!by) return "";
  const { captured } = sow(by.from, by.house);
  return `${NAMES[by.player]} moves house ${by.house}${captured ? `, captures ${counted(captured.seeds, "seed")}` : ""}${ENDS[by.word]}`;
}

function saidOfTurn(place) {
  if (isSolversTurn(state)) return `The solver moves for ${NAMES[place.player]}.`;
  if (!about(place.line).moves?.is_over) return `${NAMES[place.player]} is to move.`;
  const [own, other] = sidesOf(place).map((side) => side.houses.reduce((sum, seeds) => sum + seeds, side.store));
  const won = own === other ? "It is a draw" : `${NAMES[Number(own < other)]} wins`;
  return `The game is over. ${won}, ${Math.max(own, other)} to ${Math.min(own, other)}.`;
}

// Says what the last move was worth, and what would have been better.
function drawComment(place) {
  const worth = worthOf(place), guessed = place.by?.guessed ? `(${place.by.guessed})` : "";
  element("judged").className = worth ? (worth.lost ? "bad" : "good") : "";
  element("better").hidden = !worth?.lost;
  say("judged", worth ? `Worth ${signed(worth.value)}: ${judged(worth)}` : guessed);
  say("better", worth?.lost ? `Show house ${worth.best}` : "");
}

function judged({ lost, best, all }) {
  if (lost) return `it loses ${lost}. House ${best} is worth ${signed(all[best])}.`;
  return Object.keys(all).length > 1 ? "a best move." : "the only move.";
}

function remarkOf(place) {
  const { moves, failed, best } = about(place.line), isGuessed = mode() === "shown" && best && !isSolversTurn(state);
  if (!moves || moves.is_over || mode() === "hidden") return "";
  if (isSolvable(place.line)) return isLate(failed.values || "") ? "No values here: they take too long." : "";
  const said = `No values above ${MOST_SEEDS} seeds: ${seedsIn(place.line)} are in houses.`;
  return isGuessed ? `${said} Looking 4 moves ahead, house ${best.house} seems best.` : said;
}

function drawControls() {
  const end = lineOf(state).length - 1, { right, all } = scoreOf();
  const disabled = { first: !state.at, back: !state.at, next: state.at === end, last: state.at === end, redo: !future.length };
  for (const [id, is] of Object.entries(disabled)) element(id).disabled = is;
  element("undo").disabled = !past.some((one) => !isSolversTurn(one));
  say("score", mode() === "guess" ? `Right guesses: ${right} of ${all}` : "");
  element("by").hidden = element("solver").value === "";
  say("strength-said", element("solver").value === "" ? "" : STRENGTHS[element("strength").value]);
  say("rule-said", RULES[read(now().line).rule]);
  element("review").href = `/review?${encodeURIComponent(recordOf(state.game))}`;
  element("review").hidden = state.game.length < 2;
}

// An arrow leads from a best house, or from one that seems best, to where its last seed falls.
function drawArrow(place) {
  const values = valuesOf(place.line), { moves, best } = about(place.line), svg = element("arrow"), board = element("board");
  const guess = mode() === "shown" && !isSolvable(place.line) ? best?.house : undefined, house = values ? bestHouse(values) : guess;
  svg.replaceChildren();
  if (!house || !moves || moves.is_over || isSolversTurn(state)) return;
  const last = sow(place, house).way.at(-1), from = middle(board, place.player, house), to = middle(board, last.player, last.house);
  const [dx, dy] = [to.x - from.x, to.y - from.y], far = Math.hypot(dx, dy);
  if (!far) return;
  const [x, y] = [dx / far, dy / far], bend = place.player ? -0.18 : 0.18, edge = Math.min(18, far / 4);
  for (const [end, sign] of [[from, 1], [to, -1]]) Object.assign(end, { x: end.x + sign * edge * x, y: end.y + sign * edge * y });
  const tip = { x: to.x - 12 * x, y: to.y - 12 * y };
  svg.classList.toggle("guess", !values);
  const over = [(from.x + tip.x) / 2 + bend * dy, (from.y + tip.y) / 2 - bend * dx], wings = [tip.x - 7 * x, tip.y - 7 * y];
  const head = `M${to.x} ${to.y}L${wings[0] - 8 * y} ${wings[1] + 8 * x}L${wings[0] + 8 * y} ${wings[1] - 8 * x}Z`;
  svg.append(drawing("path", { d: `M${from.x} ${from.y}Q${over} ${tip.x} ${tip.y}` }), drawing("path", { d: head, class: "head" }));
}

function drawing(name, attributes, text = "") {
  const one = document.createElementNS(element("curve").namespaceURI, name);
  for (const [key, value] of Object.entries(attributes)) one.setAttribute(key, value);
  one.textContent = text;
  return one;
}

// The list of moves, with the variation after the move at which it begins.
function drawMoves() {
  const list = element("played"), { game, trial } = state, top = list.scrollTop, isNew = list.place !== now();
  const rows = game.slice(1).map((place, number) => moveRow(place, number + 1, false));
  const tried = trial ? trial.places.map((place, number) => moveRow(place, trial.from + number + 1, true)) : [];
  if (trial) rows.splice(Math.min(trial.from + 1, rows.length), 0, ...tried);
  keepingFocus(() => list.replaceChildren(...rows));
  const current = list.querySelector("[aria-current]");
  list.scrollTop = isNew && current ? current.offsetTop - list.clientHeight / 2 : top;
  list.place = now();
}

function moveRow(place, number, isOfTrial) {
  const worth = worthOf(place), item = made("li", "", { className: isOfTrial ? "try" : "" });
  const button = made("button", "", { type: "button", id: `move-${isOfTrial ? "v" : ""}${number}`, onclick: () => go(number, isOfTrial) });
  const parts = [`${number}.`, NAMES[place.by.player], `house ${place.by.house}`, worth ? signed(worth.value) : ""];
  button.append(...parts.map((part) => made("span", part)), made("span", worth?.lost ? `loses ${worth.lost}` : "", { className: "bad" }));
  if (place === now()) button.setAttribute("aria-current", "true");
  if (!isOfTrial && worstOf(place.by.player)?.place === place) button.classList.add("worst");
  item.append(button);
  return item;
}

// Does what puts new elements in the place of old ones, one of which may have the focus.
function keepingFocus(draw) {
  const { id } = document.activeElement || {};
  draw();
  if (id && element(id) !== document.activeElement) element(id)?.focus({ preventScroll: true });
}

// Returns the move of this player in the game that lost most, if one lost something.
function worstOf(player) {
  const moves = state.game.map((place, number) => ({ place, number, lost: (place.by?.player === player && worthOf(place)?.lost) || 0 }));
  const worst = moves.reduce((most, one) => (one.lost > most.lost ? one : most));
  return worst.lost ? worst : null;
}

function drawWorst() {
  const worst = [0, 1].map((player) => ({ player, ...worstOf(player) })).filter(({ lost }) => lost);
  const buttons = worst.map(({ player, number, lost }) => made("button", `${NAMES[player]}: move ${number} loses ${lost}`,
    { type: "button", id: `worst-${player}`, onclick: () => go(number, false) }));
  keepingFocus(() => element("worst").replaceChildren(...(buttons.length ? ["Worst moves: ", ...buttons] : [])));
}

// South's margin through the line that is shown. A red point is a place whose next move loses something.
function drawCurve() {
  const line = lineOf(state), svg = element("curve"), margins = line.map(marginOf), isKnown = margins.some((margin) => margin !== null);
  element("graph").hidden = line.length < 2 || !isKnown;
  if (element("graph").hidden) return;
  const [width, height, left] = [svg.clientWidth || 300, svg.clientHeight || 130, 30];
  const most = Math.max(1, ...margins.map(Math.abs)), step = (width - left - 12) / (line.length - 1);
  const x = (number) => left + step * number, y = (margin) => height / 2 - (margin / most) * (height / 2 - 12);
  const points = margins.flatMap((margin, number) => (margin === null ? [] : [{ margin, number }]));
  const dots = points.map(({ margin, number }) => {
    const isBad = worthOf(line[number + 1] || line[0])?.lost > 0;
    return drawing("circle", { cx: x(number), cy: y(margin), r: isBad ? 4 : 2.5, class: isBad ? "bad" : "" });
  });
  const hits = line.map((_, number) => drawing("rect", { class: "at", x: x(number) - step / 2, y: 0, width: step, height }));
  hits.forEach((hit, number) => (hit.onclick = () => go(number)));
  const here = drawing("rect", { class: "here", x: x(state.at) - 4, y: 0, width: 8, height });
  const scale = [most, 0, -most].map((margin) => drawing("text", { x: 2, y: y(margin) + 4 }, signed(margin)));
  const course = drawing("polyline", { points: points.map(({ margin, number }) => `${x(number)},${y(margin)}`).join(" ") });
  svg.setAttribute("viewBox", `0 0 ${width} ${height}`);
  svg.setAttribute("aria-label", `South's margin: ${points.map(({ margin, number }) => `${number}: ${signed(margin)}`).join(", ")}`);
  svg.replaceChildren(here, drawing("path", { class: "middle", d: `M${left} ${height / 2}H${width}` }), ...scale, course, ...dots, ...hits);
}

// Best play after each move, if that is asked for.
function drawLines(place) {
  const { moves } = about(place.line), values = valuesOf(place.line);
  element("lines").hidden = !isSolvable(place.line) || !moves || moves.is_over || !isRevealed(place.line);
  if (element("lines").hidden || !element("lines").open) return;
  element("lines").lastElementChild.replaceChildren(...moves.moves.map((move) => {
    const { line, failed } = about(move.position), worth = values ? signed(values[move.house]) : "..";
    const then = line ? `, then ${saidOfLine(line, after(place, move).player)}` : failed.line ? "; the rest takes too long" : " ..";
    return made("li", `${move.house}: ${worth}${move.word === "over" ? ", and the game is over" : then}`);
  }));
}

// Returns the moves of a line in turns, each with its player.
function saidOfLine({ houses, words, is_whole: isWhole }, player) {
  let text = "", mover = player, isNew = true;
  houses.slice(0, LONGEST_LINE).forEach((house, number) => {
    text += isNew ? `${text && ", "}${NAMES[mover]} ${house}` : ` ${house}`;
    isNew = words[number] === "turn";
    if (isNew) mover = 1 - mover;
  });
  return text + (isWhole && houses.length <= LONGEST_LINE ? "" : " ..");
}

function wrong(text, canRetry = false) {
  say("fault", text);
  element("retry").hidden = !canRetry;
}

// ADDRESSES AND RECORDS. The address has the first position and the houses that were moved; if North moves first, that; the variation, as
// the number of moves before it and its houses; and how many moves are before the place that is shown, with a v if it is of the variation.
const housesOf = (places) => places.filter(({ by }) => by).map(({ by }) => by.house);
const recordOf = (game) => [game[0].line, ...housesOf(game)].join(" ") + (game[0].player ? NORTH_FIRST : "");

function addressOf({ game, trial, isTrial, at }) {
  const tried = trial ? `&try=${trial.from}:${housesOf(trial.places).join(",")}` : "";
  return recordOf(game) + tried + (at < game.length - 1 || isTrial ? `&at=${at}${isTrial ? "v" : ""}` : "");
}

function decoded(text) {
  try {
    return decodeURIComponent(text);
  } catch {
    return text;
  }
}

// Returns the record in an address or in a text that was typed, and what is to be shown of it.
function parsed(text) {
  const [record, ...rest] = text.split("&"), parts = Object.fromEntries(rest.map((part) => part.split("=")));
  const [, from, houses] = /^([0-9]+):([1-6](?:,[1-6])*)$/.exec(parts.try || "") || [];
  const [, at, mark] = /^([0-9]+)(v?)$/.exec(parts.at || "") || [], first = parts.first === "North" ? NORTH_FIRST : "";
  return { record, first, from: Number(from), tried: houses?.split(",") || [], at, isTrial: mark === "v" };
}

function placesOf({ positions, houses }) {
  const places = [];
  positions.forEach(({ line, player, is_over, moves }, number) => {
    about(line).moves = { is_over, moves };
    const from = places[number - 1], word = is_over ? "over" : from?.player === player ? "again" : "turn";
    places.push(from ? after(from, { house: houses[number - 1], position: line, word }) : { line, player, by: null });
  });
  return places;
}

let starts = 0;

// Opens the game of an address or of a record, as far as its moves can be made. Only what was opened last is shown.
async function open(text) {
  const mine = ++starts, { record, first, from, tried, at, isTrial } = parsed(text);
  let game = null, trial = null, why = "";
  try {
    const answer = await ask("game", record + first);
    game = placesOf(answer);
    why = answer.flaw && `${text}: ${answer.flaw}`;
    if (tried.length && from < game.length) {
      const other = placesOf(await ask("game", [game[0].line, ...housesOf(game.slice(0, from + 1)), ...tried].join(" ") + first));
      if (other.length > from + 1) trial = { from, places: other.slice(from + 1) };
    }
  } catch (error) {
    why = `${text}: ${error.message}`;
  }
  if (mine !== starts) return;
  if (game) {
    if (state) past.push(state);
    const upTo = (end) => ({ game: game.slice(0, end + 1), trial: null, isTrial: false, at: end });
    // Moves up to the end can be taken back.
    if (at === undefined) past.push(...game.slice(1).map((_, number) => upTo(number)));
    future = [];
    state = { ...upTo(game.length - 1), trial };
    go(Number(at ?? game.length - 1), isTrial && trial !== null);
  } else if (!state && text !== START) await open(START);
  if (why) wrong(why);
}

// Returns the game as it is written down: South's houses as capital letters, North's as small ones, in numbered turns.
function written(game) {
  let text = game[0].line, number = game[0].player ? 1 : 0, last = null;
  for (const { by } of game.slice(1)) {
    if (by.player !== last) text += by.player ? (last === null ? " 1... " : " ") : ` ${(number += 1)}. `;
    text += by.player ? LETTERS[by.house - 1].toLowerCase() : LETTERS[by.house - 1];
    last = by.player;
  }
  return text;
}

// Copies a text. Where the browser forbids that, it stands there to be copied.
function copy(text, what) {
  const box = element("copied"), input = box.querySelector("input");
  box.hidden = false;
  input.value = text;
  input.select();
  say("copied-said", document.execCommand("copy") ? `${what} copied:` : `${what}, to be copied:`);
}

// BUTTONS, FORMS AND KEYS.
const CLICKS = {
  first: () => go(0), back: () => go(state.at - 1), next: () => go(state.at + 1), last: () => go(lineOf(state).length - 1), undo, redo,
  better: showBetter, retry: tryAgain, link: () => copy(location.href, "Link"), record: () => copy(written(state.game), "Record"),
  new: () => element("new-game").showModal(), enter: () => element("enter-game").showModal(),
};
const KEYS = { u: "undo", r: "redo", ArrowLeft: "back", ArrowRight: "next", Home: "first", End: "last" };

// Plays the best move in the place of the one that is shown.
function showBetter() {
  const worth = worthOf(now());
  if (!worth?.lost) return;
  go(state.at - 1);
  play(worth.best);
}

function sayOfNew() {
  const seeds = 2 * Number(element("houses").value) * Number(element("seeds").value);
  say("new-said", seeds > MOST_SEEDS ? `${seeds} seeds: there are values once at most ${MOST_SEEDS} are left in houses.` : "");
}

for (const [id, click] of Object.entries(CLICKS)) element(id).onclick = click;
for (const id of ["values", "solver", "strength"]) element(id).onchange = show;
for (const id of ["houses", "seeds"]) element(id).oninput = sayOfNew;
for (const cancel of document.querySelectorAll(".cancel")) cancel.onclick = () => cancel.closest("dialog").close();
element("lines").ontoggle = show;
element("new-game").onsubmit = () => {
  const side = `${Array(Number(element("houses").value)).fill(Number(element("seeds").value)).join(",")}/0`;
  open(`${side} ${side}${element("rule").value}${element("mover").value === "1" ? NORTH_FIRST : ""}`);
};
element("enter-game").onsubmit = () => {
  const text = element("text").value.trim();
  open(/^https?:/.test(text) && text.includes("#") ? decoded(text.slice(text.indexOf("#") + 1)) : text);
};
// By now the address may again be that of the game that is shown.
window.onhashchange = ({ newURL }) => open(decoded(new URL(newURL).hash.slice(1)) || START);
window.onresize = show;
document.onkeydown = (event) => {
  const isTyping = ["INPUT", "SELECT", "TEXTAREA"].includes(event.target.tagName) || document.querySelector("dialog[open]");
  if (!state || isTyping || event.ctrlKey || event.altKey || event.metaKey) return;
  if (/^[1-6]$/.test(event.key)) choose(now().player, Number(event.key));
  else if (event.key === "w") element("values").value = mode() === "shown" ? "hidden" : "shown";
  else if (KEYS[event.key]) CLICKS[KEYS[event.key]]();
  else return;
  event.preventDefault();
  if (event.key === "w") show();
};
sayOfNew();
open(decoded(location.hash.slice(1)) || START);
