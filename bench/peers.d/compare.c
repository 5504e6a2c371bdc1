/* Every contender's answers beside the pairs put in. */
#include <string.h>

#include "bench.h"
#include "files.h"

struct scanned sum_of(const struct pair *pairs, size_t count)
{
    struct scanned sum = {0};
    for (size_t i = 0; i < count; i++)
        scanned_add(&sum, pairs[i].key, pairs[i].pointer);
    return sum;
}

void compare_scan(const struct peer *peer, void *store, const struct scanned *expected, const char *when)
{
    peer->begin(store);
    struct scanned seen = peer->scan(store);
    peer->end(store);
    if (seen.count != expected->count || seen.sum != expected->sum || !seen.rising)
        die("%s, %s: a scan sees %zu codes%s, %zu are right", peer->name, when, (size_t)seen.count, seen.rising ? "" : ", not rising",
            (size_t)expected->count);
}

static void compare_finds(const struct bench *b, size_t i)
{
    for (size_t at = 0; at < b->codes; at++)
        if (peers[i]->find(b->stores[i], b->pairs[at].key) != b->pairs[at].pointer)
            die("%s: key %zu of %zu is not found as it was put in", peers[i]->name, at, b->codes);
    const struct pair *others = absent_pairs(b);
    for (size_t at = 0; at < b->sizes->queries; at++)
        if (peers[i]->find(b->stores[i], others[at].key) != 0)
            die("%s: a key is found that was not put in", peers[i]->name);
}

/* Ranges from random places of the sorted pairs, from a key and from beside one, with the end among them. */
static void compare_ranges(const struct bench *b, size_t i, range_call *range, size_t most)
{
    struct random r = {SEED};
    struct pair out[TWENTY];
    for (size_t turn = 0; turn < 20; turn++) {
        size_t at = turn == 0 ? b->codes - 3 : random_below(&r, b->codes), left = b->codes - at;
        size_t there = left < most ? left : most;
        uint64_t low = turn % 2 == 0 || at == 0 ? b->rising[at].key : b->rising[at - 1].key + 1;
        size_t found = range(b->stores[i], low, out, most);
        if (found != there || memcmp(out, &b->rising[at], there * sizeof *out) != 0)
            die("%s: a range of %zu is not as it was put in", peers[i]->name, most);
    }
}

/* A key and a recording that are there are refused, and nothing changes. */
static void compare_refusals(const struct bench *b, size_t i)
{
    const struct pair *there = &b->pairs[0], *other = &b->pairs[b->codes];
    struct pair same_key = {there->key, other->pointer}, same_recording = {other->key, there->pointer};
    if (peers[i]->insert(b->stores[i], &same_key, 1) || peers[i]->insert(b->stores[i], &same_recording, 1))
        die("%s takes a code or a recording that is there", peers[i]->name);
}

void compare_all(const struct bench *b)
{
    for (size_t i = 0; i < PEERS; i++) {
        compare_refusals(b, i);
        compare_scan(peers[i], b->stores[i], &b->expected[i], "at first");
        peers[i]->begin(b->stores[i]);
        compare_finds(b, i);
        compare_ranges(b, i, peers[i]->range, TEN);
        compare_ranges(b, i, peers[i]->range, TWENTY);
        peers[i]->end(b->stores[i]);
    }
    compare_ranges(b, 0, ours_plain.range, TEN);
    compare_ranges(b, 0, ours_range_by_search, TEN);
}
