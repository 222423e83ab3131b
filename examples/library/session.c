/*
 * Checks a policy, compiles it, and serves the request lines of standard input: session POLICY
 * cc session.c $(pkg-config --cflags --libs ifsvm) -o session
 */
#include <ifsvm.h>
#include <stdio.h>
#include <stdlib.h>

struct bytes {
	uint8_t *at;
	size_t length;
};

static void
fail(const char *what)
{
	fprintf(stderr, "session: %s\n", what);
	exit(3);
}

static struct bytes
room(size_t length)
{
	struct bytes lent = { malloc(length ? length : 1), length };

	if (lent.at == NULL)
		fail("out of memory");
	return lent;
}

/* all bytes of a file */
static struct bytes
read_whole(FILE *file)
{
	struct bytes whole = room(1 << 16);
	size_t count = 0;

	for (;;) {
		count += fread(whole.at + count, 1, whole.length - count, file);
		if (count < whole.length)
			break;
		whole.length *= 2;
		whole.at = realloc(whole.at, whole.length);
		if (whole.at == NULL)
			fail("out of memory");
	}
	if (ferror(file))
		fail("a read failed");
	whole.length = count;
	return whole;
}

/* prints the text of an answer, and returns its image; the program ends if the input is refused */
static struct bytes
answered(uint32_t word, struct bytes input)
{
	struct ifsvm_lengths lengths = { 1 << 16, 1 << 16 };
	struct bytes text, image;
	uint32_t status;

	do {
		text = room(lengths.text);
		image = room(lengths.file);
		status = ifs_page_answer(word, input.at, input.length, (const uint8_t *)"", 0, text.at, text.length, image.at,
		    image.length, &lengths);
	} while (status == IFSVM_SHORT);
	if (status > IFSVM_REFUSED)
		fail("no answer");
	fwrite(text.at, 1, lengths.text, stdout);
	if (status == IFSVM_REFUSED)
		exit(1);
	image.length = lengths.file;
	return image;
}

int
main(int count, char **words)
{
	FILE *file = count == 2 ? fopen(words[1], "rb") : NULL;
	struct bytes policy, image, requests, replies;
	size_t length = 1 << 16;
	uint32_t status;

	if (file == NULL)
		fail("usage: session POLICY < REQUESTS");
	policy = read_whole(file);
	answered(IFSVM_CHECK, policy);
	image = answered(IFSVM_COMPILE, policy);
	requests = read_whole(stdin);
	do {
		replies = room(length);
		status = ifs_page_session(image.at, image.length, requests.at, requests.length, replies.at, replies.length,
		    &length);
	} while (status == IFSVM_SHORT);
	if (status != IFSVM_GOOD)
		fail("no session");
	fwrite(replies.at, 1, length, stdout);
	return 0;
}
