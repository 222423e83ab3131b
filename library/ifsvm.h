/*
 * ifsvm.h: checks, compiles, verifies and runs failover policies. docs/LIBRARY.md explains each function.
 *
 * The caller provides a buffer for each result. A function writes the result to the front of its buffer, sets its length, and
 * returns a status. If a buffer is too short, the status is IFSVM_SHORT, and the lengths are those that are needed. No pointer
 * may be null, and no buffer may overlap another one or an input. Calls share nothing, so several threads may call at once.
 */
#ifndef IFSVM_H
#define IFSVM_H

#include <stddef.h>
#include <stdint.h>

#ifdef __cplusplus
extern "C" {
#endif

/* The words of the program. */
enum {
	IFSVM_CHECK,
	IFSVM_COMPILE,
	IFSVM_VERIFY,
	IFSVM_DISASM,
	IFSVM_ASM,
	IFSVM_UPGRADE,
	IFSVM_GRAPH
};

/* Statuses. */
enum {
	IFSVM_GOOD,
	IFSVM_REFUSED,
	IFSVM_OUT_OF_MEMORY,
	IFSVM_SHORT,
	IFSVM_NO_WORD,
	IFSVM_NO_DEFINITIONS,
	IFSVM_TOO_LONG,
	IFSVM_NO_LINKS
};

/* The lengths of a text and of a file, in bytes. */
struct ifsvm_lengths {
	size_t text;
	size_t file;
};

/* Gives what a word prints of an input, and the image that it writes. */
uint32_t ifs_page_answer(uint32_t word, const uint8_t *input, size_t input_length, const uint8_t *definitions,
    size_t definitions_length, uint8_t *text, size_t text_size, uint8_t *file, size_t file_size, struct ifsvm_lengths *lengths);

/* Gives the reports of a word on an input, as lines of JSON. */
uint32_t ifs_page_reports(uint32_t word, const uint8_t *input, size_t input_length, const uint8_t *definitions,
    size_t definitions_length, uint8_t *reports, size_t reports_size, size_t *length);

/* Gives the findings of `lint` on a policy, as lines of JSON, or the report on a policy that is refused. */
uint32_t ifs_page_findings(const uint8_t *input, size_t input_length, const uint8_t *definitions, size_t definitions_length,
    uint8_t *findings, size_t findings_size, size_t *length);

/* Gives the verdicts of `prove` on claims on a policy, as lines of JSON, or the report on the policy or the claims if refused. */
uint32_t ifs_page_verdicts(const uint8_t *input, size_t input_length, const uint8_t *claims, size_t claims_length,
    const uint8_t *definitions, size_t definitions_length, uint8_t *verdicts, size_t verdicts_size, size_t *length);

/* Gives what differs between two policies, and what the opening of the new one runs if there are links, as lines of JSON, or the
 * report on a policy that is refused. */
uint32_t ifs_page_differences(const uint8_t *old_policy, size_t old_length, const uint8_t *new_policy, size_t new_length,
    const uint8_t *definitions, size_t definitions_length, const uint8_t *links, size_t links_length, uint8_t *differences,
    size_t differences_size, size_t *length);

/* Opens an image, serves request lines, and gives the replies. */
uint32_t ifs_page_session(const uint8_t *image, size_t image_length, const uint8_t *requests, size_t requests_length,
    uint8_t *replies, size_t replies_size, size_t *length);

#ifdef __cplusplus
}
#endif

#endif
