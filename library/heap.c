/* The heap of the library: that of the C library. */
#include <stdbool.h>
#include <stddef.h>
#include <stdlib.h>

struct tried {
	bool ok;
	void *memory;
};

static char none;

static struct tried
tried(void *memory)
{
	return (struct tried){ memory != NULL, memory != NULL ? memory : &none };
}

struct tried
rattle_alloc(size_t bytes, size_t alignment)
{
	return tried(malloc(bytes != 0 ? bytes : alignment));
}

struct tried
rattle_realloc(void *memory, size_t old, size_t bytes, size_t alignment)
{
	(void)old;
	return tried(realloc(memory, bytes != 0 ? bytes : alignment));
}

void
rattle_dealloc(void *memory)
{
	free(memory);
}
