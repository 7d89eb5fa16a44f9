/* Loaded before a program, refuses one of its allocations, that of number REFUSE, the first being 1; where REFUSE_ON is set, each
   later one too. Each refusal writes a byte to the file descriptor REFUSE_MARK. */
#include <errno.h>
#include <stdlib.h>
#include <unistd.h>

extern void *__libc_malloc(size_t), *__libc_calloc(size_t, size_t);
extern void *__libc_realloc(void *, size_t), *__libc_memalign(size_t, size_t);

static long number(const char *name) { const char *text = getenv(name); return text ? atol(text) : 0; }

static int refused(void) {
    static long seen, refuse = -1, on, mark;
    if (refuse < 0) { refuse = number("REFUSE"); on = number("REFUSE_ON"); mark = number("REFUSE_MARK"); }
    seen++;
    if (refuse == 0 || seen < refuse || (seen > refuse && !on)) return 0;
    if (mark > 0 && write((int)mark, ".", 1) < 0) _exit(99);
    errno = ENOMEM;
    return 1;
}

void *malloc(size_t size) { return refused() ? NULL : __libc_malloc(size); }
void *calloc(size_t count, size_t size) { return refused() ? NULL : __libc_calloc(count, size); }
void *realloc(void *old, size_t size) { return refused() ? NULL : __libc_realloc(old, size); }
void *memalign(size_t align, size_t size) { return refused() ? NULL : __libc_memalign(align, size); }
void *aligned_alloc(size_t align, size_t size) { return memalign(align, size); }
int posix_memalign(void **to, size_t align, size_t size) { return (*to = memalign(align, size)) ? 0 : ENOMEM; }
