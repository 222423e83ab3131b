/* The picture of the states: layers from the initial state down, and the ways between them. */

const SVG = "http://www.w3.org/2000/svg";
const ROW = 104;
const GAP = 50;
const HEIGHT = 38;
const MOST_STATES = 80;
const MOST_WAYS = 600;

function element(name, attributes, ...inside) {
	const made = document.createElementNS(SVG, name);
	for (const [key, value] of Object.entries(attributes))
		made.setAttribute(key, value);
	made.append(...inside);
	return made;
}

/** A text of at most so many characters. */
function cut(text, most) {
	const characters = [...text];
	return characters.length > most ? characters.slice(0, most - 1).join("") + "…" : text;
}

/** The layers of the states: how far each is from the initial one. */
function layersOf(picture, start) {
	const depth = new Map([[start, 0]]);
	const next = [start];
	const fromAny = picture.ways.filter((way) => way.from === null).map((way) => way.to);
	for (let at = 0; at < next.length; at++) {
		const targets = picture.ways.filter((way) => way.from === next[at]).map((way) => way.to);
		for (const to of [...targets, ...(at === 0 ? fromAny : [])]) {
			if (!depth.has(to)) {
				depth.set(to, depth.get(next[at]) + 1);
				next.push(to);
			}
		}
	}
	const layers = [];
	const last = Math.max(...depth.values()) + 1;
	picture.states.forEach((_, state) => {
		const layer = depth.get(state) ?? last;
		(layers[layer] ??= []).push(state);
	});
	return layers.filter(Boolean);
}

/** Orders each layer by where its neighbours are. */
function orderLayers(layers, ways) {
	const place = new Map();
	const keep = (layer) => layer.forEach((state, at) => place.set(state, (at + 1) / (layer.length + 1)));
	layers.forEach(keep);
	for (let round = 0; round < 4; round++) {
		for (const layer of layers) {
			const weight = new Map(layer.map((state) => {
				const near = ways.filter((way) => way.from !== null && (way.from === state) !== (way.to === state))
					.filter((way) => way.from === state || way.to === state)
					.map((way) => place.get(way.from === state ? way.to : way.from));
				return [state, near.length ? near.reduce((sum, at) => sum + at, 0) / near.length : place.get(state)];
			}));
			layer.sort((a, b) => weight.get(a) - weight.get(b));
			keep(layer);
		}
	}
}

/** The box of each state. */
function boxesOf(layers, states) {
	const widths = states.map((name) => Math.max(64, 26 + 8.4 * [...cut(name, 24)].length));
	const whole = layers.map((layer) => layer.reduce((sum, state) => sum + widths[state] + GAP, GAP));
	const width = Math.max(...whole, 240) + 60;
	const boxes = [];
	layers.forEach((layer, row) => {
		let x = (width - whole[row]) / 2 + GAP;
		for (const state of layer) {
			boxes[state] = { x, y: 24 + row * ROW, width: widths[state], row, middle: x + widths[state] / 2 };
			x += widths[state] + GAP;
		}
	});
	return { boxes, width, height: layers.length * ROW + 8 };
}

/** The path of a way, and where its number is. */
function pathOf(from, to, isSelf) {
	if (isSelf) {
		const [x, y] = [from.x + from.width, from.y + HEIGHT / 2];
		return { path: `M${x},${y - 9} C${x + 34},${y - 26} ${x + 34},${y + 26} ${x + 2},${y + 9}`, x: x + 30, y: y + 4 };
	}
	if (from.row < to.row) {
		const [x1, y1, x2, y2] = [from.middle - 9, from.y + HEIGHT, to.middle - 9, to.y];
		const bend = to.row - from.row > 1 ? 46 : 0;
		return {
			path: `M${x1},${y1} C${x1 - bend},${y1 + 34} ${x2 - bend},${y2 - 34} ${x2},${y2 - 2}`,
			x: (x1 + x2) / 2 - bend * 0.75, y: (y1 + y2) / 2,
		};
	}
	if (from.row > to.row) {
		const [x1, y1, x2, y2] = [from.middle + 9, from.y, to.middle + 9, to.y + HEIGHT];
		const bend = from.row - to.row > 1 ? 46 : 0;
		return {
			path: `M${x1},${y1} C${x1 + bend},${y1 - 34} ${x2 + bend},${y2 + 34} ${x2},${y2 + 2}`,
			x: (x1 + x2) / 2 + bend * 0.75, y: (y1 + y2) / 2,
		};
	}
	const isRight = from.x < to.x;
	const side = isRight ? 0 : HEIGHT;
	const lift = isRight ? -1 : 1;
	const [x1, x2, y] = [from.middle + 6 * -lift, to.middle + 6 * lift, from.y + side];
	const high = 14 + Math.min(22, Math.abs(x2 - x1) / 12);
	return { path: `M${x1},${y} C${x1},${y + lift * high} ${x2},${y + lift * high} ${x2},${y + lift * 2}`, x: (x1 + x2) / 2, y: y + lift * high * 0.78 + 4 };
}

/** The ways of one pair of states, joined. */
function joined(ways) {
	const pairs = new Map();
	ways.forEach((way, number) => {
		const key = `${way.from} ${way.to}`;
		if (!pairs.has(key))
			pairs.set(key, { from: way.from, to: way.to, numbers: [] });
		pairs.get(key).numbers.push(number);
	});
	return [...pairs.values()];
}

/** The drawing of a way. */
function wayDrawn(way, boxes, numberOf, isLit) {
	const to = boxes[way.to];
	const at = way.from === null
		? { path: `M${to.x - 38},${to.y + HEIGHT / 2} L${to.x - 2},${to.y + HEIGHT / 2}`, x: to.x - 24, y: to.y + HEIGHT / 2 - 8 }
		: pathOf(boxes[way.from], to, way.from === way.to);
	const classes = ["way", ...(isLit ? ["lit"] : []), ...(way.from === null ? ["any"] : [])];
	const drawn = element("g", { class: classes.join(" ") });
	drawn.append(element("path", { d: at.path, fill: "none", "marker-end": isLit ? "url(#tip-lit)" : "url(#tip)" }));
	if (isLit) {
		const text = way.numbers.map(numberOf).join(", ");
		drawn.append(element("circle", { cx: at.x, cy: at.y - 4, r: 6 + 3.4 * text.length }), element("text", { x: at.x, y: at.y }, text));
	}
	return drawn;
}

function tip(name) {
	return element("marker", { id: name, viewBox: "0 0 10 10", refX: 9, refY: 5, markerWidth: 11, markerHeight: 11, markerUnits: "userSpaceOnUse", orient: "auto-start-reverse" },
		element("path", { d: "M0,0 L10,5 L0,10 z" }));
}

/** The drawing of the states, with the present one and its ways out lit. It is null if there is too much to draw. */
function drawn(picture, start, present) {
	const { states, ways } = picture;
	if (states.length > MOST_STATES || ways.length > MOST_WAYS)
		return null;
	const layers = layersOf(picture, start);
	orderLayers(layers, ways);
	const { boxes, width, height } = boxesOf(layers, states);
	const title = `The ${states.length} states of the policy. The present state is ${states[present]}.`;
	const svg = element("svg", { viewBox: `0 0 ${Math.ceil(width)} ${height}`, width: Math.ceil(width), height, role: "img", "aria-label": title });
	svg.append(element("defs", {}, tip("tip"), tip("tip-lit")));
	const out = waysOut(picture, present);
	const numberOf = (way) => out.indexOf(way) + 1;
	const isLit = (way) => way.numbers.every((number) => out.includes(number));
	for (const way of joined(ways).sort((a, b) => isLit(a) - isLit(b)))
		svg.append(wayDrawn(way, boxes, numberOf, isLit(way)));
	states.forEach((name, state) => {
		const { x, y, width: wide, middle } = boxes[state];
		const box = element("g", { class: state === present ? "state present" : "state" }, element("title", {}, name));
		box.append(element("rect", { x, y, width: wide, height: HEIGHT, rx: 8 }));
		if (state === start)
			box.append(element("rect", { x: x + 4, y: y + 4, width: wide - 8, height: HEIGHT - 8, rx: 5, class: "initial" }));
		box.append(element("text", { x: middle, y: y + 24 }, cut(name, 24)));
		svg.append(box);
	});
	return svg;
}

/** The numbers of the ways that lead out of a state, those of any state too. */
function waysOut(picture, present) {
	return picture.ways.map((_, number) => number).filter((number) => [present, null].includes(picture.ways[number].from));
}
