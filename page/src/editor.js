/* The text of the policy, with line numbers and marked places. Only the lines that are seen are numbered. */

const LINE_HEIGHT = 20;
const PADDING = 8;
const MOST_MARKS = 50;

class Editor {
	constructor(changed) {
		this.text = document.getElementById("text");
		this.gutter = document.getElementById("gutter");
		this.layer = document.getElementById("marks");
		this.marked = [];
		this.lines = null;
		this.text.addEventListener("input", () => this.edited(changed));
		this.text.addEventListener("scroll", () => this.show());
		new ResizeObserver(() => this.show()).observe(this.text);
	}

	get value() {
		return this.text.value;
	}

	set value(text) {
		this.text.value = text;
		this.marked = [];
		this.lines = null;
		this.text.scrollTop = 0;
		this.show();
	}

	edited(changed) {
		this.lines = null;
		this.show();
		changed();
	}

	/** The lines of the text. */
	all() {
		this.lines ??= this.text.value.split("\n");
		return this.lines;
	}

	/** Marks the places of reports. */
	mark(places) {
		this.marked = places.slice(0, MOST_MARKS);
		this.layer.replaceChildren(...this.marked.flatMap((place) => this.markOf(place)));
		this.show();
	}

	/** The marks of a place: one for each of its first lines. */
	markOf(place) {
		const marks = [];
		for (let line = place.line; line <= Math.min(place.end_line, place.line + 4); line++) {
			const text = this.all()[line - 1] ?? "";
			const characters = [...text];
			const from = line === place.line ? place.column - 1 : 0;
			const to = line === place.end_line ? place.end_column - 1 : characters.length;
			const [before, inside] = [this.width(characters.slice(0, from)), this.width(characters.slice(0, Math.max(to, from + 1)))];
			const mark = document.createElement("div");
			mark.className = place.severity === "error" ? "error" : "note";
			mark.style.top = `${PADDING + (line - 1) * LINE_HEIGHT}px`;
			mark.style.left = `${PADDING + before}px`;
			mark.style.width = `${Math.max(inside - before, 8)}px`;
			marks.push(mark);
		}
		return marks;
	}

	/** How wide characters are. */
	width(characters) {
		const measure = document.createElement("span");
		measure.textContent = characters.slice(0, 4000).join("");
		this.layer.append(measure);
		const { width } = measure.getBoundingClientRect();
		measure.remove();
		return width;
	}

	/** Shows the numbers and marks of the lines that are seen. */
	show() {
		const { scrollTop, scrollLeft, clientHeight } = this.text;
		const first = Math.floor(scrollTop / LINE_HEIGHT);
		const last = Math.min(this.all().length, first + Math.ceil(clientHeight / LINE_HEIGHT) + 1);
		const numbers = [];
		for (let line = first + 1; line <= last; line++)
			numbers.push(line);
		this.gutter.textContent = numbers.join("\n");
		this.gutter.style.transform = "none";
		this.gutter.scrollTop = 0;
		this.gutter.style.marginTop = `${first * LINE_HEIGHT - scrollTop}px`;
		this.layer.style.transform = `translate(${-scrollLeft}px, ${-scrollTop}px)`;
	}

	/** Puts the cursor to a place. */
	go(place) {
		const before = this.all().slice(0, place.line - 1).reduce((sum, line) => sum + line.length + 1, 0);
		const line = [...(this.all()[place.line - 1] ?? "")];
		const at = before + line.slice(0, place.column - 1).join("").length;
		this.text.focus();
		this.text.setSelectionRange(at, at);
		this.text.scrollTop = Math.max(0, (place.line - 4) * LINE_HEIGHT);
	}
}
