/* A session that is played: request lines, their replies, and what follows from them. */

const MOST_LINES = 200000;
const MOST_TICKS = 64;

/**
 * A session on an image. Commands are taken as soon as they are queued. A test that is set to true or false answers each of
 * its runs at once; one that waits answers when it is set.
 */
class Play {
	constructor(library, image, model) {
		this.library = library;
		this.image = image;
		this.model = model;
		this.acts = [];
		this.saved = [];
		this.lines = [];
		this.entries = [];
		this.commands = [];
		this.now = 0;
		this.state = model.states[model.start];
		this.links = model.interfaces.map(() => "unknown");
		this.values = model.tests.map(() => "waits");
		this.runs = new Map();
		this.started = new Map();
		this.take(statusOf(this.replyTo("status")).queue);
	}

	/** The reply to a line after all lines so far. */
	replyTo(line) {
		const requests = encoder.encode([...this.lines, line].join("\n") + "\n");
		const { status, text } = this.library.session(this.image, requests);
		if (status !== STATUS.GOOD)
			throw new LibraryFault("The session is too long.");
		return text.slice(text.lastIndexOf("\n", text.length - 2) + 1, -1);
	}

	/** What the core says of itself. */
	status() {
		return statusOf(this.replyTo("status"));
	}

	/** Sends a line, takes what it queues, and says whether anything changed. */
	send(line) {
		if (this.lines.length >= MOST_LINES)
			throw new LibraryFault("The session is too long.");
		const reply = replyOf(this.replyTo(line));
		const before = this.state;
		this.lines.push(line);
		this.state = reply.state ?? this.state;
		this.entries.push({ line, reply: reply.line, now: this.now, state: this.state, before });
		for (const [test, run] of reply.starts) {
			this.runs.set(test, run);
			this.started.set(test, this.now);
		}
		this.take(reply.queue.length);
		return reply.word === "done" || this.state !== before || reply.queue.length > 0;
	}

	/** Takes so many commands of the queue. */
	take(count) {
		for (; count > 0; count--) {
			const reply = replyOf(this.replyTo("take"));
			this.lines.push("take");
			this.entries.push({ line: "take", reply: reply.line, now: this.now, state: this.state, before: this.state });
			this.commands.push({ now: this.now, text: reply.text });
		}
	}

	/** Ends the runs of tests whose value is set, and says whether anything changed. */
	answerRuns() {
		let isChanged = false;
		for (const [test, run] of [...this.runs]) {
			if (this.values[test] === "waits")
				continue;
			this.runs.delete(test);
			isChanged = this.send(`result ${test} ${run} ${this.values[test] === "true" ? "ok" : "fail"}`) || isChanged;
		}
		return isChanged;
	}

	/** Goes on to a moment, and says whether anything changed. */
	tick(moment) {
		this.now = moment;
		const isChanged = this.send(`tick ${moment}`);
		return this.answerRuns() || isChanged;
	}

	/** The next moment at which a test is due, or the next second. */
	nextMoment() {
		const due = [...this.started].map(([test, at]) => at + this.model.tests[test].period).filter((at) => at > this.now);
		return due.length ? Math.min(...due) : this.now + 1;
	}

	/** Ticks until nothing changes any more. */
	rest() {
		const enough = this.model.tests.length + 2;
		for (let quiet = 0, ticks = 0; quiet < enough && ticks < MOST_TICKS; ticks++)
			quiet = this.tick(this.nextMoment()) ? 0 : quiet + 1;
	}

	/** Does an act, which can be taken back. */
	act(act) {
		this.saved.push(this.copied());
		this.acts.push(act);
		const [kind, number, value] = act;
		if (kind === "link") {
			this.links[number] = value;
			this.send(`link ${this.model.interfaces[number]} ${value}`);
		} else if (kind === "test") {
			this.values[number] = value;
			this.answerRuns();
		} else if (kind === "ticks") {
			for (let count = 0; count < number; count++)
				this.tick(this.now + 1);
		} else {
			this.rest();
		}
	}

	/** What an act may change. */
	copied() {
		return {
			lines: this.lines.length, entries: this.entries.length, commands: this.commands.length, now: this.now, state: this.state,
			links: [...this.links], values: [...this.values], runs: new Map(this.runs), started: new Map(this.started),
		};
	}

	/** Takes the last act back. */
	takeBack() {
		const { lines, entries, commands, ...rest } = this.saved.pop();
		this.acts.pop();
		this.lines.length = lines;
		this.entries.length = entries;
		this.commands.length = commands;
		Object.assign(this, rest);
	}
}

/** Whether an act that comes from outside is one of this model. */
function isAct(act, model) {
	if (!Array.isArray(act))
		return false;
	const [kind, number, value] = act;
	const isBelow = (list) => Number.isInteger(number) && number >= 0 && number < list.length;
	if (kind === "link")
		return isBelow(model.interfaces) && ["up", "down", "unknown"].includes(value);
	if (kind === "test")
		return isBelow(model.tests) && ["true", "false", "waits"].includes(value);
	return kind === "rest" || (kind === "ticks" && (number === 1 || number === 10));
}
