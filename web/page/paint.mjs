/** Shapes on a canvas. Nobody trusts this file for a verdict. */

/** Makes a path through lists of places, in coordinates relative to an origin. It is made once and drawn under any view. */
export function pathOf(lines, origin) {
    const path = new Path2D();
    for (const line of lines) {
        line.forEach(({ x, y }, at) => (at === 0 ? path.moveTo(x - origin.x, y - origin.y) : path.lineTo(x - origin.x, y - origin.y)));
    }
    return path;
}

/** Returns a path under a view. */
export function seen(path, view, origin) {
    const found = new Path2D();
    found.addPath(path, view.matrix(origin));
    return found;
}

export function stroke(pen, path, colour, width) {
    pen.strokeStyle = colour;
    pen.lineWidth = width;
    pen.stroke(path);
}

export function dashes(pen, path, colour, width) {
    pen.setLineDash([2 * width, 2 * width]);
    stroke(pen, path, colour, width);
    pen.setLineDash([]);
}

/** Fills one shape at each place. */
function fill(pen, places, colour, shape) {
    pen.beginPath();
    for (const place of places) shape(...place);
    pen.fillStyle = colour;
    pen.fill();
}

export function points(pen, places, colour, radius) {
    fill(pen, places, colour, (x, y) => {
        pen.moveTo(x + radius, y);
        pen.arc(x, y, radius, 0, 2 * Math.PI);
    });
}

export function squares(pen, places, colour, radius) {
    fill(pen, places, colour, (x, y) => pen.rect(x - 1.6 * radius, y - 1.6 * radius, 3.2 * radius, 3.2 * radius));
}

export function diamonds(pen, places, colour) {
    fill(pen, places, colour, (x, y) => {
        pen.moveTo(x, y - 8);
        for (const [right, down] of [[8, 0], [0, 8], [-8, 0]]) pen.lineTo(x + right, y + down);
        pen.closePath();
    });
}

/** Draws a frame and the number for each cell, around the signed nodes that are in it. */
export function cells(pen, leaves, at, colour) {
    const boxes = new Map();
    for (const leaf of leaves) {
        const [x, y] = at(leaf);
        const box = boxes.get(leaf.cell) ?? [x, y, x, y];
        boxes.set(leaf.cell, [Math.min(box[0], x), Math.min(box[1], y), Math.max(box[2], x), Math.max(box[3], y)]);
    }
    pen.strokeStyle = pen.fillStyle = colour;
    pen.lineWidth = 1;
    pen.setLineDash([4, 4]);
    pen.font = "12px system-ui, sans-serif";
    for (const [cell, [left, top, right, bottom]] of boxes) {
        pen.strokeRect(left - 5, top - 5, right - left + 10, bottom - top + 10);
        pen.fillText(`cell ${cell}`, left - 4, top - 8);
    }
    pen.setLineDash([]);
}

/** Draws an end with its letter: filled if it is proved, and a ring if it is only requested. */
export function mark(pen, [x, y], letter, { colour, paper, isProved }) {
    points(pen, [[x, y]], paper, 13);
    points(pen, [[x, y]], colour, 11);
    if (!isProved) points(pen, [[x, y]], paper, 8.5);
    pen.fillStyle = isProved ? paper : colour;
    pen.font = "bold 13px system-ui, sans-serif";
    pen.textAlign = "center";
    pen.textBaseline = "middle";
    pen.fillText(letter, x, y + 0.5);
    pen.textAlign = "start";
    pen.textBaseline = "alphabetic";
}

/** Draws the middle of the drawing, for users of the keyboard. */
export function cross(pen, [x, y], colour) {
    pen.beginPath();
    for (const [right, down] of [[1, 0], [-1, 0], [0, 1], [0, -1]]) {
        pen.moveTo(x + 5 * right, y + 5 * down);
        pen.lineTo(x + 16 * right, y + 16 * down);
    }
    pen.strokeStyle = colour;
    pen.lineWidth = 2;
    pen.stroke();
}
