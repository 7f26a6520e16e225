// A treemap: boxes whose areas are as their weights, each about as wide as high. page.js draws it.

// The worst ratio of two sides in a row along a side, where the row has this area, and its smallest and largest box these.
function worst(side, area, least, most) {
  const square = side * side, whole = area * area;
  return Math.max((square * most) / whole, whole / (square * least));
}

// Where the row ends that begins at `from`: as long as one box more makes none of it longer and thinner than the worst is. Areas fall.
function endOfRow(areas, from, side) {
  let to = from + 1, sum = areas[from], now = worst(side, sum, areas[from], areas[from]);
  for (; to < areas.length; to++) {
    const next = worst(side, sum + areas[to], areas[to], areas[from]);
    if (next > now) break;
    sum += areas[to];
    now = next;
  }
  return { to, sum };
}

// The boxes of a row along the shorter side of the room, and the room that it leaves.
function placed(row, sum, room) {
  const { left, top, width, height } = room;
  const upright = width >= height, thick = sum / (upright ? height : width);
  let along = 0;
  const boxes = row.map((area) => {
    const long = area / thick, begins = along;
    along += long;
    return upright ? { left, top: top + begins, width: thick, height: long } : { left: left + begins, top, width: long, height: thick };
  });
  const rest = upright ? { left: left + thick, top, width: width - thick, height } : { left, top: top + thick, width, height: height - thick };
  return { boxes, rest };
}

/** A box for each weight, which are above zero and fall, that fill the room together. */
export function squarified(weights, room) {
  const scale = (room.width * room.height) / weights.reduce((sum, it) => sum + it, 0);
  const areas = weights.map((it) => it * scale), all = [];
  for (let from = 0, left = room; from < areas.length; ) {
    const { to, sum } = endOfRow(areas, from, Math.min(left.width, left.height));
    const { boxes, rest } = placed(areas.slice(from, to), sum, left);
    all.push(...boxes);
    from = to;
    left = rest;
  }
  return all;
}

/** The room without a strip at its end, of this share of it; and the strip. */
export function withStrip(room, share) {
  const { left, top, width, height } = room;
  if (width >= height) {
    const main = width * (1 - share);
    return [{ ...room, width: main }, { left: left + main, top, width: width - main, height }];
  }
  const main = height * (1 - share);
  return [{ ...room, height: main }, { left, top: top + main, width, height: height - main }];
}

const middle = (box) => [box.left + box.width / 2, box.top + box.height / 2];

/** The box that is nearest to one of them in a direction, as [1, 0] to the right; itself where there is none. */
export function nearest(boxes, which, [right, down]) {
  const [x, y] = middle(boxes[which]);
  let best = which, least = Infinity;
  boxes.forEach((box, at) => {
    const [dx, dy] = [middle(box)[0] - x, middle(box)[1] - y];
    const ahead = dx * right + dy * down, aside = Math.abs(dx * down) + Math.abs(dy * right);
    if (at !== which && ahead > 0.5 && ahead + 2 * aside < least) [best, least] = [at, ahead + 2 * aside];
  });
  return best;
}
