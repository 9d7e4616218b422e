/* Loaded before the C library, it refuses or counts allocations of a program. It refuses that of the number in
 * REFUSED_ALLOCATION, the first one's 1; or, in each stretch that the program begins by a block of ONE_REFUSED bytes, that of
 * the number in REFUSED_IN_STRETCH, and in each that a block of EACH_REFUSED bytes begins, all. In a stretch that a block of
 * EACH_COUNTED bytes begins it counts them. A block of ENDED bytes ends one. For each refusal it writes a byte to the
 * descriptor in REFUSED_TO, and for each count a line to that in COUNTED_TO. The file in COUNTED_IN, of eight bytes, has the
 * number of all allocations up to now. */
#include <errno.h>
#include <fcntl.h>
#include <stdatomic.h>
#include <stddef.h>
#include <stdio.h>
#include <stdlib.h>
#include <sys/mman.h>
#include <unistd.h>

enum { ONE_REFUSED = 777001, EACH_REFUSED, EACH_COUNTED, ENDED };

void *__libc_malloc(size_t size);
void *__libc_realloc(void *block, size_t size);

static atomic_long left;
static atomic_int is_each_refused;
static atomic_int is_each_counted;
static atomic_long counted;
static atomic_long *all_counted;

static long number_in(const char *name)
{
    const char *number = getenv(name);
    return number ? atol(number) : 0;
}

__attribute__((constructor)) static void begin(void)
{
    const char *path = getenv("COUNTED_IN");
    atomic_store(&left, number_in("REFUSED_ALLOCATION"));
    if (!path)
        return;
    void *page = mmap(NULL, sizeof *all_counted, PROT_READ | PROT_WRITE, MAP_SHARED, open(path, O_RDWR | O_CLOEXEC), 0);
    if (page == MAP_FAILED)
        abort();
    all_counted = page;
}

/* Whether a block of this size begins or ends a stretch. */
static int is_sign(size_t size)
{
    return size >= ONE_REFUSED && size <= ENDED;
}

static void print_count(void)
{
    if (getenv("COUNTED_TO") && dprintf((int)number_in("COUNTED_TO"), "%ld\n", atomic_load(&counted)) < 0)
        abort();
}

static void follow(size_t size)
{
    if (atomic_exchange(&is_each_counted, 0))
        print_count();
    atomic_store(&left, size == ONE_REFUSED ? number_in("REFUSED_IN_STRETCH") : 0);
    atomic_store(&is_each_refused, size == EACH_REFUSED);
    atomic_store(&counted, 0);
    atomic_store(&is_each_counted, size == EACH_COUNTED);
}

static void count(void)
{
    if (all_counted)
        atomic_fetch_add(all_counted, 1);
    if (atomic_load(&is_each_counted))
        atomic_fetch_add(&counted, 1);
}

static int is_refused(void)
{
    if (!atomic_load(&is_each_refused) && atomic_fetch_sub(&left, 1) != 1)
        return 0;
    if (write((int)number_in("REFUSED_TO"), "!", 1) != 1)
        abort();
    errno = ENOMEM;
    return 1;
}

void *malloc(size_t size)
{
    if (is_sign(size)) {
        follow(size);
        return __libc_malloc(size);
    }
    count();
    return is_refused() ? NULL : __libc_malloc(size);
}

void *realloc(void *block, size_t size)
{
    count();
    return is_refused() ? NULL : __libc_realloc(block, size);
}
