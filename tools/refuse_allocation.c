/* A library to load before a program: it counts the allocations, refuses the one of the number that REFUSE_ALLOCATION
   names, counting from 1, and writes at the end how many there were to the file descriptor 3. */
typedef unsigned long size;

extern void *__libc_malloc(size);
extern void *__libc_calloc(size, size);
extern void *__libc_realloc(void *, size);
extern void *__libc_memalign(size, size);
extern char *getenv(const char *);
extern long atol(const char *);
extern int dprintf(int, const char *, ...);

enum { OUT_OF_MEMORY = 12 };

static long made = 0;
static long refused = -1;

static int is_refused(void) {
  if (refused < 0) {
    const char *word = getenv("REFUSE_ALLOCATION");
    refused = word ? atol(word) : 0;
  }
  made += 1;
  return made == refused;
}

void *malloc(size len) { return is_refused() ? 0 : __libc_malloc(len); }

void *calloc(size count, size len) { return is_refused() ? 0 : __libc_calloc(count, len); }

void *realloc(void *old, size len) { return is_refused() ? 0 : __libc_realloc(old, len); }

void *aligned_alloc(size align, size len) { return is_refused() ? 0 : __libc_memalign(align, len); }

void *memalign(size align, size len) { return is_refused() ? 0 : __libc_memalign(align, len); }

int posix_memalign(void **found, size align, size len) {
  void *made_here = is_refused() ? 0 : __libc_memalign(align, len);
  if (!made_here) {
    return OUT_OF_MEMORY;
  }
  *found = made_here;
  return 0;
}

__attribute__((destructor)) static void tell(void) { dprintf(3, "%ld\n", made); }
