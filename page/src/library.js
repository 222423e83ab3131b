/* The proved code as a WebAssembly module. Each call is on its own. After a trap, the next call begins a new instance. */

const WORDS = { check: 0, compile: 1, verify: 2, disasm: 3, asm: 4, upgrade: 5, graph: 6 };
const STATUS = { GOOD: 0, REFUSED: 1, OUT_OF_MEMORY: 2, SHORT: 3, NO_WORD: 4, NO_DEFINITIONS: 5, TOO_LONG: 6, NO_LINKS: 7 };
const FIRST_ROOM = 1 << 16;
const LENGTHS = 16;

const encoder = new TextEncoder();
const decoder = new TextDecoder();

/** What ended a call: a trap, or memory that is used up. */
class LibraryFault extends Error {}

class Library {
	constructor(module) {
		this.module = module;
		this.instance = null;
	}

	/** Runs one call, with everything of earlier calls let go. */
	call(run) {
		try {
			this.instance ??= new WebAssembly.Instance(this.module);
			this.instance.exports.page_begin();
			return run(this.instance.exports);
		} catch (fault) {
			this.instance = null;
			if (fault instanceof LibraryFault)
				throw fault;
			throw new LibraryFault(`The proved code stopped: ${fault.message}. It was started anew.`);
		}
	}

	/** What a word prints of an input, and the file that it makes. */
	answer(word, input, definitions) {
		return this.call((functions) => {
			const lengths = lent(functions, new Uint8Array(LENGTHS))[0];
			const given = [...lent(functions, input), ...lent(functions, definitions)];
			let [text, file] = [FIRST_ROOM, FIRST_ROOM];
			for (;;) {
				const rooms = [room(functions, text), BigInt(text), room(functions, file), BigInt(file)];
				const status = functions.ifs_page_answer(word, ...given, ...rooms, lengths);
				if (status > STATUS.REFUSED && status !== STATUS.SHORT)
					return { status, text: "", file: new Uint8Array() };
				[text, file] = told(functions, lengths);
				if (status !== STATUS.SHORT)
					return { status, text: decoder.decode(copy(functions, rooms[0], text)), file: copy(functions, rooms[2], file) };
			}
		});
	}

	/** The reports of a word on an input, in JSON. */
	reports(word, input, definitions) {
		return this.text((functions) => [functions.ifs_page_reports, word, ...lent(functions, input), ...lent(functions, definitions)]);
	}

	/** The findings of `lint` on a policy, in JSON; with the status REFUSED, the report on the policy. */
	findings(input, definitions) {
		return this.text((functions) => [functions.ifs_page_findings, ...lent(functions, input), ...lent(functions, definitions)]);
	}

	/** The verdicts of `prove` on claims on a policy, in JSON; with the status REFUSED, the report on what is refused. */
	verdicts(input, claims, definitions) {
		return this.text((functions) => [functions.ifs_page_verdicts, ...lent(functions, input), ...lent(functions, claims), ...lent(functions, definitions)]);
	}

	/** What differs between a policy and an edited one, in JSON, and what the opening of the edited one runs if links are known. */
	differences(input, edited, definitions, links) {
		return this.text((functions) => [functions.ifs_page_differences, ...lent(functions, input), ...lent(functions, edited), ...lent(functions, definitions), ...lent(functions, links)]);
	}

	/** The replies of a session on an image. */
	session(image, requests) {
		return this.text((functions) => [functions.ifs_page_session, ...lent(functions, image), ...lent(functions, requests)]);
	}

	/** The text that a function writes into one room. */
	text(prepared) {
		return this.call((functions) => {
			const length = lent(functions, new Uint8Array(LENGTHS))[0];
			const [run, ...given] = prepared(functions);
			let size = FIRST_ROOM;
			for (;;) {
				const lentRoom = room(functions, size);
				const status = run(...given, lentRoom, BigInt(size), length);
				if (status === STATUS.OUT_OF_MEMORY)
					throw new LibraryFault("Memory is used up.");
				if (status > STATUS.REFUSED && status !== STATUS.SHORT)
					return { status, text: "" };
				[size] = told(functions, length);
				if (status !== STATUS.SHORT)
					return { status, text: decoder.decode(copy(functions, lentRoom, size)) };
			}
		});
	}
}

/** Room for so many bytes. */
function room(functions, size) {
	const at = functions.page_room(BigInt(Math.max(size, 1)));
	if (at === 0n)
		throw new LibraryFault("Memory is used up.");
	return at;
}

/** The place and the length of bytes that are lent to the module. */
function lent(functions, bytes) {
	const at = room(functions, bytes.length);
	new Uint8Array(functions.memory.buffer).set(bytes, Number(at));
	return [at, BigInt(bytes.length)];
}

/** The two lengths that a call told. */
function told(functions, at) {
	const view = new DataView(functions.memory.buffer, Number(at), LENGTHS);
	return [Number(view.getBigUint64(0, true)), Number(view.getBigUint64(8, true))];
}

function copy(functions, at, length) {
	return new Uint8Array(functions.memory.buffer, Number(at), length).slice();
}

/** The bytes of a text in base64. */
function bytesOf(base64) {
	return Uint8Array.from(atob(base64), (character) => character.charCodeAt(0));
}

/** Bytes through a stream that compresses or decompresses. */
async function through(stream, bytes) {
	return new Uint8Array(await new Response(new Blob([bytes]).stream().pipeThrough(stream)).arrayBuffer());
}

/** The library of a compressed module in base64. */
async function libraryOf(base64) {
	const module = await through(new DecompressionStream("gzip"), bytesOf(base64));
	return new Library(await WebAssembly.compile(module));
}
