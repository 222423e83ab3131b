/*
 * The heap of the page's module. Blocks have a power of two of bytes, 16 of them a header. A block that is let go is kept
 * for the next one of its size. page_begin() lets go of everything: no call of the library keeps anything.
 */
typedef __UINT64_TYPE__ uint64_t;
typedef __UINTPTR_TYPE__ uintptr_t;

enum { HEADER = 16, SMALLEST = 5, SIZES = 40, PAGE = 65536 };

struct block {
	uint64_t size;
	struct block *next;
};

struct tried {
	_Bool ok;
	void *memory;
};

extern unsigned char __heap_base;
static uintptr_t top;
static struct block *kept[SIZES];
static unsigned char none;

/* Whether the memory reaches to an end. What growing it returns has 32 bits once addresses are lowered, so its size is asked again. */
static _Bool
grown(uintptr_t end)
{
	uintptr_t pages = (end + PAGE - 1) / PAGE;
	uintptr_t now = __builtin_wasm_memory_size(0);

	if (pages > now)
		__builtin_wasm_memory_grow(0, pages - now);
	return pages <= __builtin_wasm_memory_size(0);
}

static void *
taken(uint64_t bytes)
{
	uint64_t size = SMALLEST;
	struct block *block;

	while (size < SIZES && ((uint64_t)1 << size) < bytes + HEADER)
		size++;
	if (bytes >= ((uint64_t)1 << 32) || size == SIZES)
		return 0;
	block = kept[size];
	if (block) {
		kept[size] = block->next;
	} else {
		if (!grown(top + ((uintptr_t)1 << size)))
			return 0;
		block = (struct block *)top;
		top += (uintptr_t)1 << size;
		block->size = size;
	}
	return (unsigned char *)block + HEADER;
}

static struct tried
tried(void *memory)
{
	return (struct tried){ memory != 0, memory ? memory : &none };
}

struct tried
rattle_alloc(uint64_t bytes, uint64_t alignment)
{
	return tried(taken(bytes ? bytes : alignment));
}

void
rattle_dealloc(void *memory)
{
	struct block *block = (struct block *)((unsigned char *)memory - HEADER);

	block->next = kept[block->size];
	kept[block->size] = block;
}

struct tried
rattle_realloc(void *memory, uint64_t old, uint64_t bytes, uint64_t alignment)
{
	struct block *block = (struct block *)((unsigned char *)memory - HEADER);
	uint64_t wanted = bytes ? bytes : alignment;
	void *moved;

	if (wanted <= ((uint64_t)1 << block->size) - HEADER)
		return tried(memory);
	moved = taken(wanted);
	if (moved) {
		__builtin_memcpy(moved, memory, old < wanted ? old : wanted);
		rattle_dealloc(memory);
	}
	return tried(moved);
}

__attribute__((export_name("page_begin"))) void
page_begin(void)
{
	top = ((uintptr_t)&__heap_base + HEADER - 1) / HEADER * HEADER;
	for (int size = 0; size < SIZES; size++)
		kept[size] = 0;
}

/* room for so many bytes, or 0 */
__attribute__((export_name("page_room"))) void *
page_room(uint64_t bytes)
{
	return taken(bytes);
}
