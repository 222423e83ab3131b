/* What the page shows of reports and of a session. */

const MOST_SHOWN = 300;
const byId = (id) => document.getElementById(id);

/** An element with a text or with others inside. */
function made(name, attributes, ...inside) {
	const element = document.createElement(name);
	for (const [key, value] of Object.entries(attributes))
		element.setAttribute(key, value);
	element.append(...inside);
	return element;
}

/** The line of a report with its place underlined. */
function excerptOf(report, lines) {
	const text = lines[report.line - 1] ?? "";
	const characters = [...text];
	const [from, most] = [Math.max(0, report.column - 60), 120];
	const shown = characters.slice(from, from + most).join("").replace(/\t/g, " ");
	const end = report.end_line === report.line ? report.end_column : characters.length + 1;
	const carets = Math.max(1, Math.min(end - report.column, most));
	const number = `${report.line} | `;
	const line = made("span", { class: "excerpt" }, number + shown + "\n");
	line.append(made("span", { class: "caret" }, " ".repeat(number.length + report.column - 1 - from) + "^".repeat(carets)));
	return line;
}

/** A report as an item of a list. */
function reportItem(report, editor) {
	const item = made("li", { class: report.severity });
	const code = report.code ? `${report.code}: ` : "";
	const expected = report.expected?.length ? `; expected ${report.expected.join(", ")}` : "";
	const words = `${report.severity}: ${code}${report.message}${expected}`;
	if (report.line && !report.definition) {
		const button = made("button", { type: "button" }, `Line ${report.line}, column ${report.column}`);
		button.addEventListener("click", () => editor.go(report));
		item.append(button, ` ${words}`, excerptOf(report, editor.all()));
	} else {
		item.append(report.definition ? `Definition ${report.definition}, ${words}` : words);
	}
	for (const related of report.related ?? [])
		item.append(made("span", { class: "rule" }, related.line ? `line ${related.line}: ${related.message}` : related.message));
	if (report.rule)
		item.append(made("span", { class: "rule" }, `rule: ${report.rule}`));
	if (report.hint)
		item.append(made("span", { class: "hint" }, `hint: ${report.hint}`));
	return item;
}

/** A verdict on a claim as an item of a list, with the requests that break it. */
function verdictItem(report) {
	const hint = report.hint ? `; ${report.hint}` : "";
	const item = made("li", { class: report.severity }, `${report.line ? `Line ${report.line}: ` : ""}${report.message}${hint}`);
	if (report.requests)
		item.append(made("span", { class: "excerpt" }, report.requests.join("\n")));
	return item;
}

/** A group of radio buttons. Arrow keys go from one to the next. */
function radios(name, legend, small, values, chosen, act) {
	const group = made("fieldset", {}, made("legend", {}, legend));
	if (small)
		group.append(made("small", {}, small));
	for (const [value, words] of values) {
		const radio = made("input", { type: "radio", name, value, "aria-label": value });
		radio.checked = value === chosen;
		radio.addEventListener("change", () => act(value));
		group.append(made("label", {}, radio, words));
	}
	return group;
}

/** Shows the links and the tests. Groups that are there stay, so that the focus does. */
function showFacts(play, act) {
	const { model } = play;
	const links = model.interfaces.map((name, number) => ["link", number, name, "", LINKS, play.links[number]]);
	const tests = model.tests.map(({ text, period }, number) => ["test", number, text, `every ${period} s`, TESTS, play.values[number]]);
	for (const [place, rows, title] of [["links", links, "Links"], ["tests", tests, "Tests"]]) {
		const box = byId(place);
		const key = JSON.stringify(rows.map((row) => row.slice(1, 4)));
		if (box.dataset.key !== key) {
			box.dataset.key = key;
			box.replaceChildren(made("h3", {}, rows.length ? title : `No ${title.toLowerCase()}`), ...rows.map(([kind, number, name, small, values, chosen]) =>
				radios(`${kind}-${number}`, cut(name, 70), small, values, chosen, (value) => act([kind, number, value]))));
		}
		for (const [kind, number, , , , chosen] of rows)
			box.querySelector(`input[name="${kind}-${number}"][value="${chosen}"]`).checked = true;
	}
}

const LINKS = [["up", "up"], ["down", "down"], ["unknown", "?"]];
const TESTS = [["true", "true"], ["false", "false"], ["waits", "waits"]];

/** Shows the ways out of the present state. */
function showWays(picture, present) {
	const rows = waysOut(picture, present).slice(0, MOST_SHOWN).map((number, at) => {
		const { from, to, condition } = picture.ways[number];
		const where = from === null ? " (from any state)" : "";
		return made("tr", {}, made("td", {}, String(at + 1)), made("td", {}, picture.states[to] + where), made("td", {}, condition || "always"));
	});
	if (!rows.length)
		rows.push(made("tr", {}, made("td", { colspan: "3" }, "There is none.")));
	document.querySelector("#ways tbody").replaceChildren(...rows);
}

/** Shows the requests and replies, the last first. */
function showLine(entries) {
	const rows = entries.slice(-MOST_SHOWN).reverse().map(({ now, line, reply, state, before }) =>
		made("tr", state === before ? {} : { class: "moved" }, made("td", {}, `${now} s`), made("td", {}, line), made("td", {}, reply)));
	document.querySelector("#line tbody").replaceChildren(...rows);
}

/** Shows for how long each state lasted, as bars. */
function showStrip(play, first) {
	const bars = [{ state: first, from: 0 }];
	for (const { state, before, now } of play.entries) {
		if (state !== before)
			bars.push({ state, from: now });
	}
	const shown = bars.slice(-12);
	const width = 640;
	const svg = element("svg", { viewBox: `0 0 ${width} 34`, width, height: 34, role: "img", "aria-label": `States so far: ${shown.map(({ state, from }) => `${state} from ${from} s`).join(", ")}` });
	const each = width / shown.length;
	shown.forEach(({ state, from }, at) => svg.append(
		element("rect", { x: at * each, y: 0, width: each, height: 34, rx: 4 }, element("title", {}, `${state} from ${from} s`)),
		element("text", { x: at * each + 5, y: 14 }, cut(state, Math.floor(each / 8))), element("text", { x: at * each + 5, y: 29 }, `${from} s`)));
	byId("strip").replaceChildren(svg);
}

/** Shows the commands that ran, the last first. */
function showCommands(list, commands) {
	list.replaceChildren(...commands.slice(-MOST_SHOWN).reverse().map(({ now, text }) => made("li", {}, `${now} s: ${text}`)));
}

/** Offers bytes as a file. */
function offered(bytes, name, type) {
	const link = made("a", { href: URL.createObjectURL(new Blob([bytes], { type })), download: name });
	link.click();
	setTimeout(() => URL.revokeObjectURL(link.href), 1000);
}
