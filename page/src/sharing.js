/* A link that holds a policy and its session, and what the browser keeps. */

const MOST_SHARED = 1 << 20;
const KEPT = "ifsvm-policy";

function base64Of(bytes) {
	let text = "";
	for (let at = 0; at < bytes.length; at += 4096)
		text += String.fromCharCode(...bytes.subarray(at, at + 4096));
	return btoa(text).replace(/\+/g, "-").replace(/\//g, "_").replace(/=+$/, "");
}

/** The part of a link behind `#` that holds this. */
async function hashOf(shared) {
	const bytes = encoder.encode(JSON.stringify(shared));
	return "#1" + base64Of(await through(new CompressionStream("gzip"), bytes));
}

/** The bytes of a compressed text, of which more than a policy may have are refused. */
async function inflated(bytes) {
	const reader = new Blob([bytes]).stream().pipeThrough(new DecompressionStream("gzip")).getReader();
	const parts = [];
	for (let length = 0; ;) {
		const { done, value } = await reader.read();
		if (done)
			return new Uint8Array(await new Blob(parts).arrayBuffer());
		length += value.length;
		if (length > 4 * MOST_SHARED)
			throw new Error("too long");
		parts.push(value);
	}
}

/** What a link holds: `{ policy, definitions, acts }`. It is null if it holds nothing, and an error if it is broken. */
async function sharedIn(hash) {
	if (!hash.startsWith("#1"))
		return null;
	const bytes = bytesOf(hash.slice(2).replace(/-/g, "+").replace(/_/g, "/"));
	const shared = JSON.parse(decoder.decode(await inflated(bytes)));
	const isText = (text) => typeof text === "string";
	if (!shared || !isText(shared.policy) || !isText(shared.definitions) || !Array.isArray(shared.acts))
		throw new Error("no policy");
	return shared;
}

/** Keeps a text in the browser, where that is allowed. */
function keep(key, value) {
	try {
		localStorage.setItem(key, value);
	} catch {
		// it is not kept
	}
}

function kept(key) {
	try {
		return localStorage.getItem(key);
	} catch {
		return null;
	}
}
