/* Two gateways with one policy, and an election as keepalived makes it: the gateway with the higher priority that can be heard. */

const ELECTED = "gateway";
const PRIORITIES = [110, 100];
const STANDS_BACK = 100;
const BROKEN = /^echo ([01]) > \/run\/ifsvm\/broken$/;

class Pair {
	constructor(library, image, model) {
		this.model = model;
		this.elected = model.interfaces.indexOf(ELECTED);
		this.plays = PRIORITIES.map(() => new Play(library, image, model));
		this.cables = [true, true];
		this.providers = [true, true];
		this.seen = [0, 0];
		this.isBroken = [false, false];
		this.settle();
	}

	/** Whether a policy has the link that an election decides. */
	static fits(model) {
		return model.interfaces.includes(ELECTED);
	}

	/** The number of the gateway that has the address, or -1. */
	master() {
		const priorities = PRIORITIES.map((priority, at) => (this.cables[at] ? priority - (this.isBroken[at] ? STANDS_BACK : 0) : -Infinity));
		const highest = Math.max(...priorities);
		return highest === -Infinity ? -1 : priorities.indexOf(highest);
	}

	/** Reads what the commands say about standing back. */
	heed() {
		this.plays.forEach((play, at) => {
			for (; this.seen[at] < play.commands.length; this.seen[at]++) {
				const found = BROKEN.exec(play.commands[this.seen[at]].text);
				if (found)
					this.isBroken[at] = found[1] === "1";
			}
		});
	}

	/** Tells the gateways what the election says, until it says nothing new. */
	settle() {
		for (let round = 0; round < 8; round++) {
			this.heed();
			const master = this.master();
			let isNew = false;
			this.plays.forEach((play, at) => {
				const link = this.cables[at] && at === master ? "up" : "down";
				if (play.links[this.elected] !== link) {
					isNew = true;
					play.act(["link", this.elected, link]);
				}
			});
			if (!isNew)
				return;
		}
	}

	/** Goes on by seconds, with one election each second. */
	tick(seconds) {
		for (let count = 0; count < seconds; count++) {
			this.plays.forEach((play, at) => {
				const value = this.cables[at] && this.providers[at] ? "true" : "false";
				play.values = play.values.map(() => value);
				play.act(["ticks", 1]);
			});
			this.settle();
		}
	}

	cable(at, isIn) {
		this.cables[at] = isIn;
		this.settle();
	}
}

/** A box with a label that is checked or not. */
function check(words, isChecked, act) {
	const box = made("input", { type: "checkbox" });
	box.checked = isChecked;
	box.addEventListener("change", () => act(box.checked));
	return made("label", {}, box, ` ${words}`);
}

/** The part of the page with two gateways. */
class PairPanel {
	constructor(tried) {
		this.tried = tried;
		this.pair = null;
		this.parts = [];
	}

	/** Begins anew with an image, if its policy has the link that an election decides. */
	begin(library, image, model) {
		const fits = Pair.fits(model);
		byId("pair-about").textContent = fits
			? "Both gateways have this policy. The link of gateway says who has the address. The first has the higher priority. A test is true while the cable is in and the provider answers. An election follows each second."
			: "For a policy with an interface of the name gateway, as in the example linux_pair, two gateways are shown side by side.";
		this.pair = fits ? new Pair(library, image, model) : null;
		byId("pair").replaceChildren(...(fits ? this.built() : []));
		this.show();
	}

	/** The controls of both gateways, and of the time. */
	built() {
		const act = (run) => this.tried(() => {
			run();
			this.show();
		});
		this.parts = this.pair.plays.map((_, at) => {
			const part = { about: made("p", { role: "status" }), commands: made("ol", { tabindex: "0", "aria-label": `Commands of gateway ${at + 1}` }) };
			const cable = check("cable is in", true, (isIn) => act(() => this.pair.cable(at, isIn)));
			const provider = check("provider answers", true, (answers) => act(() => { this.pair.providers[at] = answers; }));
			part.box = made("article", {}, made("h3", {}, `Gateway ${at + 1}`), part.about, made("p", {}, cable, " ", provider), part.commands);
			return part;
		});
		const time = [["One second", 1], ["Ten seconds", 10]].map(([words, seconds]) => {
			const button = made("button", { type: "button", id: `pair-${seconds}` }, words);
			button.addEventListener("click", () => act(() => this.pair.tick(seconds)));
			return button;
		});
		return [...this.parts.map(({ box }) => box), made("div", { class: "buttons" }, ...time)];
	}

	show() {
		this.pair?.plays.forEach((play, at) => {
			const { about, box, commands } = this.parts[at];
			const holds = this.pair.cables[at] && this.pair.master() === at;
			about.textContent = `State ${play.state}, moment ${play.now} s. ${holds ? "It has the address." : "It does not have the address."}`;
			box.classList.toggle("holds", holds);
			showCommands(commands, play.commands);
		});
	}
}
