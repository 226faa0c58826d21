"use strict";

// Draws the pictures of the rules: a position, and the one after a move, both as South sees them.
for (const picture of document.querySelectorAll(".picture")) {
  const { line, after, house } = picture.dataset, place = { line, player: 0 };
  const draw = (one, more) => {
    const board = made("div", "", { className: "board" });
    picture.insertBefore(board, picture.lastElementChild);
    layBoard(board, read(line).sides[0].houses.length);
    fillBoard(board, one, more);
    return board;
  };
  const board = draw(place, {});
  if (house) cellOn(board, 0, Number(house)).classList.add("moved");
  if (after) draw({ line: after, player: 0 }, { by: { from: place, house: Number(house) } });
}
