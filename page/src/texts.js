/* Readers of what the words print: assembly text, pictures, replies, and reports. */

/** The text between quotes, with `\"`, `\\` and `\xHH` resolved. */
function unquoted(quoted) {
	return quoted.slice(1, -1).replace(/\\(x([0-9a-f]{2})|.)/g, (_, escape, digits) =>
		digits ? String.fromCharCode(parseInt(digits, 16)) : escape);
}

/** The names, tests, commands, budgets and states that assembly text has. */
function modelOf(listing) {
	const model = { interfaces: [], tests: [], commands: [], states: [], start: 0, budgets: {} };
	for (const line of listing.split("\n")) {
		const [, word, rest] = /^(\S+) ?(.*)$/s.exec(line) ?? [];
		if (word === "iface")
			model.interfaces.push(unquoted(rest));
		else if (word === "command")
			model.commands.push(unquoted(rest));
		else if (word === "test")
			model.tests.push({ period: Number(rest.split(" ", 1)[0]), text: unquoted(rest.slice(rest.indexOf('"'))) });
		else if (word === "state")
			model.states.push(unquoted(/^"(?:\\.|[^"\\])*"/s.exec(rest)[0]));
		else if (word === "start")
			model.start = Number(rest);
		else if (["stack", "frames", "cost", "commands"].includes(word))
			model.budgets[word] = Number(rest);
		else if (word === "routine")
			break;
	}
	return model;
}

/** A label of a picture as text. */
function labelOf(quoted) {
	return quoted.replace(/&amp;/g, "&").replace(/\\(n|.)/g, (_, escape) => (escape === "n" ? "\n" : escape));
}

/** The states and the ways between them that a picture has. */
function pictureOf(text) {
	const picture = { states: [], ways: [] };
	const label = String.raw`label="((?:\\.|[^"\\])*)"`;
	const node = new RegExp(String.raw`^\ts(\d+) \[${label}`, "s");
	const way = new RegExp(String.raw`^\t(?:s(\d+)|any) -> s(\d+)(?: \[(?:${label})?)?`, "s");
	for (const line of text.split("\n")) {
		let found = node.exec(line);
		if (found)
			picture.states[Number(found[1])] = labelOf(found[2]);
		found = way.exec(line);
		if (found) {
			const from = found[1] === undefined ? null : Number(found[1]);
			picture.ways.push({ from, to: Number(found[2]), condition: labelOf(found[3] ?? "") });
		}
	}
	return picture;
}

/** A reply to a step: its word, and what it says. */
function replyOf(line) {
	const reply = { word: line.split(" ", 1)[0], line, state: null, queue: [], starts: [], text: null };
	const quoted = /^(?:done|tick|status|taken \d+) ("(?:\\.|[^"\\])*")/s.exec(line);
	if (quoted)
		reply[reply.word === "taken" ? "text" : "state"] = unquoted(quoted[1]);
	const rest = quoted ? line.slice(quoted[0].length) : line;
	const queue = / queue ([\d,]+)/.exec(rest);
	if (queue && reply.word !== "status")
		reply.queue = queue[1].split(",");
	const starts = / starts ([\d:,]+)/.exec(rest);
	if (starts)
		reply.starts = starts[1].split(",").map((start) => start.split(":").map(Number));
	return reply;
}

/** What a status says. */
function statusOf(line) {
	const found = / owed (yes|no) queue (\d+) running (\d+) now (\d+)$/.exec(line);
	return found && { isOwed: found[1] === "yes", queue: Number(found[2]), running: Number(found[3]), now: Number(found[4]) };
}

/** The objects of lines of JSON. */
function objectsOf(lines) {
	return lines.split("\n").filter(Boolean).map((line) => JSON.parse(line));
}
