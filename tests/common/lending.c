/* Memory to lend to the library. */
#include "lending.h"

#include <signal.h>
#include <stdio.h>
#include <stdlib.h>
#include <string.h>
#include <sys/mman.h>
#include <unistd.h>

#include "cards.h"

enum { PAGE = 4096, BESIDE = 64 };

static int in_heap;
static uint8_t pattern[BESIDE];

static void outside(int signal_number)
{
    static const char words[] = "  differs: the library reads or writes outside a list\n0 passed, 1 failed\n";
    (void)signal_number;
    if (write(STDOUT_FILENO, words, sizeof words - 1) < 0) _exit(2);
    _exit(1);
}

void prepare_lending(int heap)
{
    size_t i;
    in_heap = heap;
    for (i = 0; i < BESIDE; i++) pattern[i] = (uint8_t)(1 + random_below(255));
    signal(SIGSEGV, outside);
    signal(SIGBUS, outside);
}

void fill(void *list, size_t bytes)
{
    uint8_t *to = list;
    size_t i;
    for (i = 0; i < bytes; i += 8) {
        uint64_t number = random_number();
        memcpy(to + i, &number, bytes - i < 8 ? bytes - i : 8);
    }
}

static void no_memory(void)
{
    printf("check: no memory\n0 passed, 1 failed\n");
    exit(1);
}

static void make_room(struct loan *loan, size_t bytes)
{
    size_t size = (bytes + BESIDE + PAGE - 1) / PAGE * PAGE;
    uint8_t *all;
    if (loan->size >= size) return;
    if (loan->size > 0) munmap(loan->room - PAGE, loan->size + 2 * PAGE);
    all = mmap(NULL, size + 2 * PAGE, PROT_READ | PROT_WRITE, MAP_PRIVATE | MAP_ANONYMOUS, -1, 0);
    if (all == MAP_FAILED || mprotect(all, PAGE, PROT_NONE) != 0 || mprotect(all + PAGE + size, PAGE, PROT_NONE) != 0) no_memory();
    loan->room = all + PAGE;
    loan->size = size;
}

static uint8_t *beside(const struct loan *loan)
{
    return loan->at_front ? loan->list + loan->bytes : loan->list - BESIDE;
}

void *lend(struct loan *loan, const void *contents, size_t bytes)
{
    loan->bytes = bytes;
    loan->at_front = random_below(2) == 0;
    if (in_heap) {
        loan->list = malloc(bytes);
        if (bytes > 0 && loan->list == NULL) no_memory();
    } else {
        make_room(loan, bytes);
        loan->list = loan->room + (loan->at_front ? 0 : loan->size - bytes);
        memcpy(beside(loan), pattern, BESIDE);
    }
    if (bytes > 0) memcpy(loan->list, contents, bytes);
    return loan->list;
}

void *lend_list(struct loan *loan, const void *contents, size_t bytes)
{
    void *list = lend(loan, contents, bytes);
    return bytes == 0 && random_below(2) == 0 ? NULL : list;
}

int take_back(struct loan *loan, const void *contents)
{
    int kept = loan->bytes == 0 || memcmp(loan->list, contents, loan->bytes) == 0;
    if (in_heap) free(loan->list);
    else kept = kept && memcmp(beside(loan), pattern, BESIDE) == 0;
    loan->list = NULL;
    return kept;
}
