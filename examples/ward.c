/* A ward of four slots under LRU: forms the directory, asks for the pages of a round, reports the list, and prints an LRU curve. */
#include <inttypes.h>
#include <stdio.h>

#include "pagedir.h"

/* The policy LRU, its capacity, and the words that a directory of that capacity takes at most. */
enum { LRU = 1, SLOTS = 4, ROOM = 64 };

/* The pages asked for on a round. */
static const uint32_t ROUND[] = {7, 9, 7, 5, 2, 9, 7, 3, 5, 7, 9, 2};

/* How many pages a round has. */
static const size_t ROUND_PAGES = sizeof ROUND / sizeof ROUND[0];

/* Tells a refusal, and says whether there was one. */
static int refused(const char *call, uint32_t number)
{
    if (number != 0)
        printf("%s refused: %" PRIu32 "\n", call, number);
    return number != 0;
}

/* Forms a directory over the words and gives its length, 0 on a refusal. */
static size_t form(uint32_t *words)
{
    uint32_t length[1] = {0};

    if (refused("pd_words", pd_words(LRU, SLOTS, 0, 0, length)) || length[0] > ROOM)
        return 0;
    if (refused("pd_form", pd_form(LRU, SLOTS, 0, 0, words, length[0])))
        return 0;
    printf("formed: %" PRIu32 " words, sound %" PRIu32 "\n", length[0], pd_audit(words, length[0]));
    return length[0];
}

/* Asks for a page, and prints the answer. */
static void ask(uint32_t *words, size_t n, uint32_t page)
{
    static const char *const KINDS[] = {"", "hit", "loaded", "swapped"};
    uint32_t answer[4] = {0, PD_NONE, PD_NONE, 0};

    if (refused("pd_request", pd_request(words, n, page, answer)))
        return;
    printf("page %" PRIu32 ": %s, slot %" PRIu32, page, KINDS[answer[0]], answer[1]);
    if (answer[2] != PD_NONE)
        printf(", page %" PRIu32 " put out", answer[2]);
    printf("\n");
}

/* Prints where a page is. */
static void look(const uint32_t *words, size_t n, uint32_t page)
{
    static const char *const PLACES[] = {"absent", "held", "remembered"};
    uint32_t answer[2] = {0, PD_NONE};

    if (!refused("pd_look", pd_look(words, n, page, answer)))
        printf("page %" PRIu32 ": %s\n", page, PLACES[answer[0]]);
}

/* Prints the pages of list 1. */
static void report(const uint32_t *words, size_t n)
{
    uint32_t pages[SLOTS] = {0}, count[1] = {0};

    if (refused("pd_report", pd_report(words, n, 1, pages, SLOTS, count)))
        return;
    printf("list 1:");
    for (uint32_t i = 0; i < count[0]; i++)
        printf(" %" PRIu32, pages[i]);
    printf(" (%" PRIu32 " pages)\n", count[0]);
}

/* Prints the LRU hits of a round at each capacity up to the ward's. */
static void curve(void)
{
    uint32_t hits[SLOTS] = {0}, list[SLOTS] = {0};

    if (refused("pd_curve", pd_curve(SLOTS, ROUND, ROUND_PAGES, hits, SLOTS, list, SLOTS)))
        return;
    for (int c = 0; c < SLOTS; c++)
        printf("capacity %d: %" PRIu32 " hits\n", c + 1, hits[c]);
}

/* Runs the ward's round. */
int main(void)
{
    uint32_t words[ROOM] = {0};
    size_t n = form(words);

    if (n == 0)
        return 1;
    for (size_t i = 0; i < ROUND_PAGES; i++)
        ask(words, n, ROUND[i]);
    look(words, n, 7);
    report(words, n);
    curve();
    return 0;
}
