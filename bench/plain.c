#include "plain.h"
#include <math.h>
#include <string.h>

static int64_t L[2 * LONGEST + 1];
static int64_t times_L[2 * LONGEST + 1]; // n times L(n)

void plain_logarithms(uint32_t largest) {
    for (uint32_t n = 1; n <= largest; n++) {
        L[n] = (int64_t)floorl(1024 * log2l(n));
        times_L[n] = n * L[n];
    }
}

void plain_start(trie *t, uint32_t alphabet, uint32_t depth, uint32_t weight) {
    t->alphabet = alphabet;
    t->depth = depth;
    t->weight = weight;
    t->used = 1;
    t->size[0] = t->size[1] = 0;
    memset(&t->nodes[ROOT], 0, sizeof(node));
}

static uint32_t child_of(trie *t, uint32_t at, uint8_t symbol) {
    uint32_t child = t->nodes[at].child[symbol];
    if (child) return child;
    child = t->used++;
    memset(&t->nodes[child], 0, sizeof(node));
    return t->nodes[at].child[symbol] = child;
}

// A place counts once D symbols stand before it, and then for the D+1 contexts that they end in.
void plain_feed_all(trie *t, uint32_t sample, const uint8_t *symbols, uint32_t many) {
    uint8_t *text = t->text[sample];
    for (uint32_t i = 0; i < many; i++) {
        uint32_t size = t->size[sample]++, at = ROOT;
        text[size] = symbols[i];
        if (size < t->depth) continue;
        t->nodes[ROOT].count[sample][symbols[i]]++;
        for (uint32_t j = 1; j <= t->depth; j++) {
            at = child_of(t, at, text[size - j]);
            t->nodes[at].count[sample][symbols[i]]++;
        }
    }
}

// The root is there from the start, and seen with the first place that counts.
uint32_t plain_held(const trie *t) { return t->size[0] > t->depth || t->size[1] > t->depth ? t->used : 0; }

// ---- the report

// Of both trees together, of the first alone and of the second alone: the least loss and how many rows.
typedef struct {
    int64_t loss[3];
    uint32_t rows[3];
} best;

// What a context costs: shared, the first's own, the second's own.
static int64_t costs[3];

static int64_t spread(const uint32_t *count, const uint32_t *other, uint32_t alphabet) {
    int64_t sum = 0;
    uint32_t total = 0;
    for (uint32_t a = 0; a < alphabet; a++) {
        uint32_t c = count[a] + (other ? other[a] : 0);
        sum += times_L[c];
        total += c;
    }
    return 8 * (times_L[total] - sum);
}

// The leaf, or the children where they lose less. Ties: shared leaf, two separate trees, split of both; leaf before split.
static best decide(node *n, const int64_t own[3], const best *below) {
    best b = {{own[0], own[1], own[2]}, {1, 1, 1}};
    uint8_t joint = 0, split[2] = {0, 0};
    for (int k = 1; k < 3; k++) {
        if (!below || own[k] <= below->loss[k]) continue;
        split[k - 1] = 1;
        b.loss[k] = below->loss[k];
        b.rows[k] = below->rows[k];
    }
    int64_t apart = b.loss[1] + b.loss[2];
    if (apart < b.loss[0]) b.loss[0] = apart, b.rows[0] = b.rows[1] + b.rows[2], joint = 1;
    if (below && below->loss[0] < b.loss[0]) b.loss[0] = below->loss[0], b.rows[0] = below->rows[0], joint = 2;
    n->joint = joint, n->split[0] = split[0], n->split[1] = split[1];
    return b;
}

static best weigh(trie *t, node *n, uint32_t left, const best *unseen) {
    int64_t own[3] = {costs[0] + spread(n->count[0], n->count[1], t->alphabet),
                      costs[1] + spread(n->count[0], 0, t->alphabet), costs[2] + spread(n->count[1], 0, t->alphabet)};
    if (left == 0) return decide(n, own, 0);
    best below = {{0, 0, 0}, {0, 0, 0}};
    for (uint32_t a = 0; a < t->alphabet; a++) {
        uint32_t c = n->child[a];
        best b = c ? weigh(t, &t->nodes[c], left - 1, unseen) : *unseen;
        for (int k = 0; k < 3; k++) below.loss[k] += b.loss[k], below.rows[k] += b.rows[k];
    }
    return decide(n, own, &below);
}

static uint32_t *put(uint32_t *to, uint32_t kind, uint32_t length, uint32_t code, const node *n) {
    to[0] = kind;
    to[1] = length;
    to[2] = code;
    for (int a = 0; a < 8; a++) {
        if (kind == 0) to[3 + a] = n->count[0][a] + n->count[1][a];
        else to[3 + a] = n->count[kind - 1][a];
    }
    return to + 11;
}

// `joint`: both trees are wanted; else `first` and `second` say which of the own trees go on.
static uint32_t *put_rows(const trie *t, uint32_t *to, const node *n, uint32_t length, uint32_t code, int joint, int first,
                          int second) {
    if (joint && n->joint == 0) return put(to, 0, length, code, n);
    if (joint && n->joint == 1) joint = 0, first = second = 1;
    if (!joint) {
        if (first && !n->split[0]) to = put(to, 1, length, code, n), first = 0;
        if (second && !n->split[1]) to = put(to, 2, length, code, n), second = 0;
        if (!first && !second) return to;
    }
    for (uint32_t a = 0; a < t->alphabet; a++) {
        uint32_t c = n->child[a] ? n->child[a] : UNSEEN;
        to = put_rows(t, to, &t->nodes[c], length + 1, code + (a << 3 * length), joint, first, second);
    }
    return to;
}

uint32_t plain_report(trie *t, uint32_t *sheet, int64_t *score) {
    int64_t each = t->weight * (t->alphabet - 1);
    costs[0] = each * L[t->size[0] + t->size[1]];
    costs[1] = each * L[t->size[0]];
    costs[2] = each * L[t->size[1]];
    memset(&t->nodes[UNSEEN], 0, sizeof(node));
    best unseen = decide(&t->nodes[UNSEEN], costs, 0);
    best b = weigh(t, &t->nodes[ROOT], t->depth, &unseen);
    put_rows(t, sheet, &t->nodes[ROOT], 0, 0, 1, 0, 0);
    *score = -b.loss[0];
    return b.rows[0];
}

// ---- the chart question

uint32_t plain_chart(const trie *t, uint32_t length, uint32_t code, uint32_t symbol, double shares[3]) {
    uint32_t at = ROOT, seen = 0;
    for (uint32_t j = 0; j < length; j++, code >>= 3)
        if (!(at = t->nodes[at].child[code & 7])) return 0;
    for (uint32_t i = 0; i < 2; i++) {
        const uint32_t *count = t->nodes[at].count[i];
        uint32_t total = 0;
        for (uint32_t a = 0; a < t->alphabet; a++) total += count[a];
        if (total == 0) continue;
        seen += 1 + i;
        shares[i] = (double)count[symbol] / total;
    }
    if (seen == 3) shares[2] = shares[0] - shares[1];
    return seen;
}

// ---- the sitting file

enum { EARLY = 13, LONGER = 14, OUTSIDE = 15, SHORT = 19 };

// A number of one group of seven bits, or of two.
static uint8_t *put_number(uint8_t *to, size_t number) {
    if (number >= 128) *to++ = 128 + number % 128, number /= 128;
    *to++ = number;
    return to;
}

size_t plain_file(const recording *r, uint8_t *file) {
    uint8_t *to = file;
    *to++ = r->alphabet;
    *to++ = r->depth;
    for (int i = 0; i < 2; i++) to = put_number(to, r->size[i]);
    for (int i = 0; i < 2; i++) {
        memcpy(to, r->sample[i], r->size[i]);
        to += r->size[i];
    }
    return to - file;
}

static int below(const uint8_t *symbols, size_t many, uint32_t alphabet) {
    for (size_t i = 0; i < many; i++)
        if (symbols[i] >= alphabet) return 0;
    return 1;
}

static int within(const recording *r) {
    if (r->alphabet < 2 || r->alphabet > 8 || r->depth > 6) return 0;
    if (r->size[0] > LONGEST || r->size[1] > LONGEST) return 0;
    return below(r->sample[0], r->size[0], r->alphabet) && below(r->sample[1], r->size[1], r->alphabet);
}

static size_t length_of(const recording *r) {
    return 4 + (r->size[0] >= 128) + (r->size[1] >= 128) + r->size[0] + r->size[1];
}

uint32_t plain_write(const recording *r, uint8_t *file, size_t room, size_t *written) {
    if (!within(r)) return OUTSIDE;
    if (length_of(r) > room) return SHORT;
    *written = plain_file(r, file);
    return 0;
}

// The bytes that are still to be read.
typedef struct {
    const uint8_t *at, *end;
} rest;

static uint32_t take_number(rest *from, uint32_t least, uint32_t most, uint32_t *number) {
    if (from->at == from->end) return EARLY;
    *number = *from->at++;
    if (*number >= 128) {
        if (from->at == from->end) return EARLY;
        uint32_t group = *from->at++;
        if (group == 0 || group >= 128) return LONGER;
        *number += 128 * group - 128;
    }
    return *number < least || *number > most ? OUTSIDE : 0;
}

static uint32_t take_header(rest *from, uint32_t header[4]) {
    static const uint32_t least[4] = {2, 0, 0, 0}, most[4] = {8, DEEPEST, LONGEST, LONGEST};
    uint32_t why = 0;
    for (int i = 0; i < 4 && !why; i++) why = take_number(from, least[i], most[i], &header[i]);
    return why;
}

// Takes a sample's bytes as far as they exist, and keeps those before the first that is no symbol.
static void take_sample(rest *from, size_t wanted, recording *r, int which, uint64_t lost[2]) {
    size_t there = from->end - from->at, kept = 0;
    if (there > wanted) there = wanted;
    while (kept < there && from->at[kept] < r->alphabet) kept++;
    r->sample[which] = from->at;
    r->size[which] = kept;
    lost[0] = wanted - there, lost[1] = there - kept;
    from->at += there;
}

uint32_t plain_salvage(const uint8_t *damaged, size_t many, uint8_t *file, size_t room, size_t *written, uint64_t told[5]) {
    rest from = {damaged, damaged + many};
    uint32_t header[4], why = take_header(&from, header);
    if (why) return why;
    recording r = {.alphabet = header[0], .depth = header[1]};
    uint64_t lost[5];
    for (int i = 0; i < 2; i++) take_sample(&from, header[2 + i], &r, i, &lost[2 * i]);
    if (length_of(&r) > room) return SHORT;
    lost[4] = from.end - from.at;
    *written = plain_file(&r, file);
    memcpy(told, lost, sizeof lost);
    return 0;
}
