/* The page: the text, what is said of it, and its session. */

const LARGE = 100000;
const LATER = 250;

class Page {
	constructor(library) {
		this.library = library;
		this.editor = new Editor(() => this.changed());
		this.panel = new PairPanel((run) => this.tried(run));
		this.play = null;
		this.timer = 0;
		for (const [id, act] of [["tick", ["ticks", 1]], ["ten", ["ticks", 10]], ["rest", ["rest"]]])
			byId(id).addEventListener("click", () => this.act(act));
		byId("back").addEventListener("click", () => this.again(() => this.play.takeBack()));
		byId("anew").addEventListener("click", () => this.tried(() => this.begin([])));
		byId("definitions").addEventListener("input", () => this.changed());
		byId("lint").addEventListener("toggle", () => this.tried(() => this.lint()));
		for (const [id, event] of [["prove", "toggle"], ["claims", "input"]])
			byId(id).addEventListener(event, () => this.tried(() => this.prove()));
		byId("save").addEventListener("click", () => offered(this.play.image, "image", "application/octet-stream"));
		byId("lines").addEventListener("click", () => offered(this.requests(), "requests", "text/plain"));
		byId("svg").addEventListener("click", () => offered(svgText(), "states.svg", "image/svg+xml"));
		byId("share").addEventListener("click", () => this.share());
		byId("example").addEventListener("change", (event) => this.example(event.target.value));
	}

	/** Runs something, and reports a trap or a lack of memory. */
	tried(run) {
		try {
			byId("trouble").hidden = true;
			run();
		} catch (fault) {
			this.trouble(fault instanceof LibraryFault ? fault.message : `The page has a fault: ${fault.message}`);
		}
	}

	trouble(words) {
		byId("trouble").textContent = words;
		byId("trouble").hidden = false;
	}

	/** Opens a policy with a session. */
	open(policy, definitions, acts) {
		this.editor.value = policy;
		byId("definitions").value = definitions;
		this.tried(() => this.check(acts));
	}

	/** Opens an example. */
	example(name) {
		if (name)
			this.open(EXAMPLES[name], "", []);
	}

	/** The text or the definitions were changed. */
	changed() {
		clearTimeout(this.timer);
		if (this.editor.value.length < LARGE)
			this.tried(() => this.check([]));
		else
			this.timer = setTimeout(() => this.tried(() => this.check([])), LATER);
	}

	/** The text, and the definitions with a NUL behind each. */
	given() {
		const definitions = byId("definitions").value.split("\n").filter((line) => line.trim() !== "");
		return [encoder.encode(this.editor.value), encoder.encode(definitions.map((line) => `${line}\0`).join(""))];
	}

	/** Checks and compiles the text, shows what is said of it, and begins a session if it is accepted. */
	check(acts) {
		const [policy, definitions] = this.given();
		keep(KEPT, JSON.stringify({ policy: this.editor.value, definitions: byId("definitions").value }));
		const checked = this.library.answer(WORDS.compile, policy, definitions);
		this.said(checked, policy, definitions);
		const isGood = checked.status === STATUS.GOOD;
		byId("old").hidden = isGood || !this.play;
		document.querySelector(".run").classList.toggle("stale", !isGood && this.play !== null);
		if (isGood)
			this.accepted(checked.file, policy, definitions, acts);
		this.lint();
		this.prove();
	}

	/** Shows the verdict on the text, and the reports on it. */
	said({ status, text }, policy, definitions) {
		const verdict = byId("verdict");
		const faults = {
			[STATUS.OUT_OF_MEMORY]: "Memory is used up.",
			[STATUS.NO_DEFINITIONS]: "A definition is not NAME=VALUE.",
		};
		const last = text.trimEnd().split("\n").pop();
		verdict.textContent = faults[status] ?? (status === STATUS.GOOD ? `Accepted: ${last}` : `Refused: ${last.replace("refused ", "")}`);
		verdict.className = status === STATUS.GOOD ? "good" : "bad";
		const found = status > STATUS.REFUSED ? [] : objectsOf(this.library.reports(WORDS.compile, policy, definitions).text);
		byId("reports").replaceChildren(...found.slice(0, MOST_SHOWN).map((report) => reportItem(report, this.editor)));
		this.editor.mark(found.filter((report) => report.line && !report.definition));
	}

	/** Shows an accepted policy, and begins its session. */
	accepted(image, policy, definitions, acts) {
		const listing = this.library.answer(WORDS.disasm, image, new Uint8Array()).text;
		this.image = image;
		this.listing = listing;
		this.model = modelOf(listing);
		this.picture = pictureOf(this.library.answer(WORDS.graph, policy, definitions).text);
		this.begin(acts);
		this.showImage();
	}

	/** Begins the session with acts that are made. */
	begin(acts) {
		const play = new Play(this.library, this.image, this.model);
		for (const act of acts)
			play.act(act);
		this.play = play;
		this.panel.begin(this.library, this.image, this.model);
		this.show();
	}

	act(act) {
		this.again(() => this.play.act(act));
	}

	/** Changes the session, if there is one, and shows it. A change that fails is taken back. */
	again(run) {
		if (!this.play)
			return;
		const acts = [...this.play.acts];
		this.tried(() => {
			try {
				run();
			} catch (fault) {
				this.begin(acts);
				throw fault;
			}
			this.show();
		});
	}

	/** Shows the session. */
	show() {
		const { play, picture, model } = this;
		const present = model.states.indexOf(play.state);
		byId("state").textContent = play.state;
		byId("moment").textContent = `at ${play.now} s`;
		byId("back").disabled = play.acts.length === 0;
		showFacts(play, (act) => this.act(act));
		showWays(picture, present);
		showCommands(byId("commands"), play.commands);
		showLine(play.entries);
		showStrip(play, model.states[model.start]);
		const svg = drawn(picture, model.start, present);
		byId("picture").replaceChildren(svg ?? made("p", {}, `${model.states.length} states and ${picture.ways.length} ways are too many to draw.`));
		byId("svg").disabled = svg === null;
	}

	showImage() {
		const { stack, frames, cost, commands } = this.model.budgets;
		byId("budgets").textContent = `${this.image.length} bytes. Budgets: stack ${stack}, frames ${frames}, cost ${cost}, commands ${commands}.`;
		const shown = this.image.subarray(0, 4096);
		byId("bytes").textContent = [...shown].map((byte) => byte.toString(16).padStart(2, "0")).join(" ") + (shown.length < this.image.length ? " …" : "");
		byId("listing").textContent = this.listing.slice(0, 200000);
	}

	/** Looks for what can never happen, if that part is open. */
	lint() {
		if (!byId("lint").open)
			return;
		const [policy, definitions] = this.given();
		const { status, text } = this.library.findings(policy, definitions);
		const found = objectsOf(text);
		byId("findings").replaceChildren(...found.slice(0, MOST_SHOWN).map((report) => reportItem(report, this.editor)));
		byId("found").textContent = status === STATUS.GOOD ? `${found.length} findings.` : "The policy is refused.";
	}

	/** Shows the verdicts on the claims, if that part is open. */
	prove() {
		if (!byId("prove").open)
			return;
		const [policy, definitions] = this.given();
		const { status, text } = this.library.verdicts(policy, encoder.encode(byId("claims").value), definitions);
		const found = objectsOf(text);
		byId("verdicts").replaceChildren(...found.slice(0, MOST_SHOWN).map((report) => verdictItem(report)));
		const refused = found[0]?.file === "claims" ? "The claims are refused." : "The policy is refused.";
		byId("proved").textContent = status === STATUS.REFUSED ? refused : `${found.length} verdicts.`;
	}

	/** The request lines of the session. */
	requests() {
		return this.play.lines.map((line) => `${line}\n`).join("");
	}

	/** Puts the policy and its session into the address, and copies that. */
	async share() {
		const acts = this.play?.acts ?? [];
		history.replaceState(null, "", await hashOf({ policy: this.editor.value, definitions: byId("definitions").value, acts }));
		try {
			await navigator.clipboard.writeText(location.href);
			byId("share").textContent = "Link copied";
		} catch {
			byId("share").textContent = "Link is in the address";
		}
		setTimeout(() => { byId("share").textContent = "Copy link"; }, 2000);
	}

	/** Opens what the address holds, or what the browser keeps, or the first example. */
	async start() {
		let shared = null;
		try {
			shared = await sharedIn(location.hash);
		} catch {
			this.trouble("The link is broken. It holds no policy.");
		}
		shared ??= keptPolicy() ?? { policy: Object.values(EXAMPLES)[0], definitions: "", acts: [] };
		const broken = byId("trouble").textContent;
		this.open(shared.policy, shared.definitions, []);
		if (broken)
			this.trouble(broken);
		else if (this.play)
			this.tried(() => this.begin(shared.acts.filter((act) => isAct(act, this.model))));
	}
}

/** The policy that the browser keeps. */
function keptPolicy() {
	try {
		const { policy, definitions } = JSON.parse(kept(KEPT));
		return typeof policy === "string" && typeof definitions === "string" ? { policy, definitions, acts: [] } : null;
	} catch {
		return null;
	}
}

/** The picture as a file of its own, with its colours. */
function svgText() {
	const svg = document.querySelector("#picture svg").cloneNode(true);
	svg.setAttribute("xmlns", SVG);
	const style = getComputedStyle(document.documentElement);
	const rules = [...document.styleSheets[0].cssRules].map((rule) => rule.cssText).filter((text) => text.startsWith("svg "));
	const text = rules.join("\n").replace(/var\((--[\w-]+)\)/g, (_, name) => style.getPropertyValue(name).trim());
	svg.prepend(element("style", {}, text));
	return new XMLSerializer().serializeToString(svg);
}

function chooseTheme() {
	const select = byId("theme");
	const apply = () => {
		document.documentElement.dataset.theme = select.value;
		keep("ifsvm-theme", select.value);
	};
	select.value = kept("ifsvm-theme") ?? "";
	select.addEventListener("change", apply);
	apply();
}

async function begin() {
	chooseTheme();
	byId("example").append(...Object.keys(EXAMPLES).map((name) => made("option", { value: name }, name)));
	try {
		const page = new Page(await libraryOf(MODULE));
		globalThis.ifsvmPage = page;
		await page.start();
		document.documentElement.dataset.ready = "yes";
	} catch (fault) {
		byId("trouble").textContent = `This browser cannot run the page: ${fault.message}`;
		byId("trouble").hidden = false;
	}
}

begin();
