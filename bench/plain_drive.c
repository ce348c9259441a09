/* A plain drive in simple loops, row by row and cell by cell, to compare times with: no vectors by hand, no proofs.
   It serves what the tables of speed ask for: an image of the first version, blank or full, with one channel, and a trace of
   writes, reads and trims by one actor, in which each read is recovered at the first read level. It keeps no history.
   usage: plain_drive all|summary < image-and-trace
   Writes the replies as the program does (all), and then a line: iterations, moves, picks and a sum of the data that was read.
   Status 3: the input is none of these. */
#include <stdint.h>
#include <stdio.h>
#include <stdlib.h>
#include <string.h>

enum { FREE, FRONTIER, SEALED, NONE = -1 };

struct block {
    int column, shift;
};

static int dies, superblocks, pages, z, base_rows, base_columns, iterations, data_bytes, rows;
static int erased, programmed, spread, level;
static int word_bytes, part_bytes, cells, slots;
static uint64_t seed, session;
static struct block layers[16][128];
static int degrees[16], middle, first_shift;

static int16_t *levels;           /* page after page: die, block, page */
static int *states, *used, *live; /* of each superblock */
static uint32_t *erases;
static int *owners, *slot_of_row; /* owners by slot, NONE where none */
static uint64_t *serials;
static uint8_t *stripe_sum;
static int frontier = NONE;

static int16_t p[128 * 1024];
static int8_t r[16 * 128 * 1024];
static long long iterated, moves, picks;
static uint64_t read_sum;

static void refused(const char *why)
{
    fprintf(stderr, "%s\n", why);
    exit(3);
}

static void take(void *to, size_t bytes)
{
    if (fread(to, 1, bytes, stdin) != bytes)
        refused("short");
}

static uint64_t number(int bytes)
{
    uint8_t b[8];
    uint64_t n = 0;
    take(b, bytes);
    for (int i = 0; i < bytes; i++)
        n |= (uint64_t)b[i] << (8 * i);
    return n;
}

static uint64_t next_word(uint64_t *state)
{
    uint64_t x = *state += 0x9e3779b97f4a7c15u;
    x = (x ^ (x >> 30)) * 0xbf58476d1ce4e5b9u;
    x = (x ^ (x >> 27)) * 0x94d049bb133111ebu;
    return x ^ (x >> 31);
}

static int bit_of(const uint8_t *bytes, int i)
{
    return bytes[i >> 3] >> (i & 7) & 1;
}

static int turned(int place, int shift)
{
    return place + shift < z ? place + shift : place + shift - z;
}

/* The parity of a word whose part is there. */
static void encode(uint8_t *word)
{
    static uint8_t sums[16][1024], parity[16][1024];
    int message = base_columns - base_rows;
    memset(sums, 0, sizeof sums);
    for (int i = 0; i < base_rows; i++)
        for (int e = 0; e < degrees[i] && layers[i][e].column < message; e++)
            for (int t = 0; t < z; t++)
                sums[i][t] ^= bit_of(word, layers[i][e].column * z + turned(t, layers[i][e].shift));
    memset(parity[0], 0, z);
    for (int i = 0; i < base_rows; i++)
        for (int t = 0; t < z; t++)
            parity[0][t] ^= sums[i][t];
    for (int t = 0; t < z; t++)
        parity[1][t] = sums[0][t] ^ parity[0][turned(t, first_shift)];
    for (int i = 1; i < base_rows - 1; i++)
        for (int t = 0; t < z; t++)
            parity[i + 1][t] = sums[i][t] ^ parity[i][t] ^ (i == middle ? parity[0][t] : 0);
    memset(word + part_bytes, 0, word_bytes - part_bytes);
    for (int i = 0; i < base_rows; i++)
        for (int t = 0; t < z; t++) {
            int at = (message + i) * z + t;
            word[at >> 3] |= parity[i][t] << (at & 7);
        }
}

static int64_t page_of(int die, int sb, int page)
{
    return ((int64_t)die * superblocks + sb) * pages + page;
}

static void program(int die, int sb, int page, const uint8_t *word)
{
    int64_t place = page_of(die, sb, page);
    uint64_t state = seed + ((uint64_t)place << 32) + erases[sb];
    int16_t *to = levels + place * cells;
    for (int at = 0; at < cells; at += 4) {
        uint64_t noise = next_word(&state);
        for (int l = 0; l < 4 && at + l < cells; l++) {
            int u = noise >> (16 * l) & 0xffff;
            to[at + l] = (bit_of(word, at + l) ? erased : programmed) + u % (2 * spread + 1) - spread;
        }
    }
}

static void sense(int die, int sb, int page, uint8_t *word)
{
    const int16_t *from = levels + page_of(die, sb, page) * cells;
    for (int b = 0; b < word_bytes; b++) {
        int byte = 0;
        for (int i = 0; i < 8; i++)
            byte |= (from[8 * b + i] < level) << i;
        word[b] = byte;
    }
}

static int is_codeword(const uint8_t *word)
{
    for (int i = 0; i < base_rows; i++)
        for (int t = 0; t < z; t++) {
            int odd = 0;
            for (int e = 0; e < degrees[i]; e++)
                odd ^= bit_of(word, layers[i][e].column * z + turned(t, layers[i][e].shift));
            if (odd)
                return 0;
        }
    return 1;
}

static int clamped(int x)
{
    return x > 127 ? 127 : x < -127 ? -127 : x;
}

static void work_row(const struct block *layer, int degree, int t, int8_t *edges)
{
    int given[128], variables[128];
    int least = 127, second = 127, negative = 0;
    for (int e = 0; e < degree; e++) {
        variables[e] = layer[e].column * z + turned(t, layer[e].shift);
        given[e] = clamped(p[variables[e]] - edges[e * z + t]);
        int magnitude = abs(given[e]);
        if (magnitude < least) {
            second = least;
            least = magnitude;
        } else if (magnitude < second) {
            second = magnitude;
        }
        negative ^= given[e] < 0;
    }
    for (int e = 0; e < degree; e++) {
        int told = 3 * (abs(given[e]) == least ? second : least) / 4;
        if ((given[e] < 0) != negative)
            told = -told;
        p[variables[e]] = given[e] + told;
        edges[e * z + t] = told;
    }
}

/* Decodes a sensed word in its place. */
static int decode(uint8_t *word)
{
    if (is_codeword(word))
        return 1;
    for (int v = 0; v < cells; v++)
        p[v] = bit_of(word, v) ? -32 : 32;
    memset(r, 0, sizeof r);
    for (int n = 0; n < iterations; n++) {
        int8_t *edges = r;
        for (int i = 0; i < base_rows; edges += degrees[i++] * z)
            for (int t = 0; t < z; t++)
                work_row(layers[i], degrees[i], t, edges);
        iterated++;
        for (int b = 0; b < word_bytes; b++) {
            int byte = 0;
            for (int i = 0; i < 8; i++)
                byte |= (p[8 * b + i] < 0) << i;
            word[b] = byte;
        }
        if (is_codeword(word))
            return 1;
    }
    return 0;
}

static void head_of(uint8_t *head, uint64_t serial, uint32_t row)
{
    memcpy(head, &serial, 8);
    memcpy(head + 8, &row, 4);
    memcpy(head + 12, "PGE1", 4);
}

/* Senses the page of a row and decodes it. */
static void fetch(int row, uint8_t *word)
{
    int slot = slot_of_row[row], sb = slot / slots, stripe = slot % slots / (dies - 1), n = slot % (dies - 1);
    int parity = (sb + stripe) % dies;
    uint8_t head[16];
    sense(n < parity ? n : n + 1, sb, stripe, word);
    if (!decode(word))
        refused("a word isn't found");
    head_of(head, serials[row], row);
    if (memcmp(head, word, 16))
        refused("another head");
    for (int i = 16 + data_bytes; i < part_bytes; i++)
        if (word[i])
            refused("another end");
}

static int next_superblock(void)
{
    int found = NONE;
    for (int sb = 0; sb < superblocks; sb++)
        if (states[sb] == FREE && (found == NONE || erases[sb] < erases[found]))
            found = sb;
    if (found == NONE)
        refused("no free superblock");
    states[found] = FRONTIER;
    return found;
}

static void forget(int row)
{
    int slot = slot_of_row[row];
    if (slot == NONE)
        return;
    owners[slot] = NONE;
    live[slot / slots]--;
    slot_of_row[row] = NONE;
}

/* Programs the next slot with a word, and the stripe's parity behind its last one. */
static void place(int row, const uint8_t *word)
{
    if (frontier == NONE)
        frontier = next_superblock();
    int sb = frontier, index = used[sb]++, stripe = index / (dies - 1), n = index % (dies - 1), parity = (sb + stripe) % dies;
    program(n < parity ? n : n + 1, sb, stripe, word);
    for (int i = 0; i < word_bytes; i++)
        stripe_sum[i] ^= word[i];
    if (n == dies - 2) {
        program(parity, sb, stripe, stripe_sum);
        memset(stripe_sum, 0, word_bytes);
    }
    forget(row);
    slot_of_row[row] = sb * slots + index;
    owners[sb * slots + index] = row;
    live[sb]++;
    if (used[sb] == slots) {
        states[sb] = SEALED;
        frontier = NONE;
    }
}

static int has_room(void)
{
    int free = 0;
    for (int sb = 0; sb < superblocks; sb++)
        free += states[sb] == FREE;
    return free + (frontier != NONE) >= 2 && free > 0;
}

/* One round: copies what is live in the superblock with the most garbage, and erases it. */
static void collect(uint8_t *word)
{
    int victim = NONE;
    for (int sb = 0; sb < superblocks; sb++)
        if (states[sb] == SEALED && live[sb] < slots && (victim == NONE || live[sb] < live[victim]))
            victim = sb;
    if (victim == NONE)
        refused("no garbage");
    picks++;
    for (int i = 0; i < slots && live[victim]; i++) {
        int row = owners[victim * slots + i];
        if (row == NONE)
            continue;
        fetch(row, word);
        place(row, word);
        moves++;
    }
    states[victim] = FREE;
    used[victim] = 0;
    erases[victim]++;
}

static void write_page(int row, uint64_t given, uint64_t serial, uint8_t *word)
{
    while (!has_room())
        collect(word);
    memset(word, 0, word_bytes);
    head_of(word, serial, row);
    for (int at = 0; at < data_bytes; at += 8) {
        uint64_t data = next_word(&given);
        memcpy(word + 16 + at, &data, data_bytes - at < 8 ? data_bytes - at : 8);
    }
    encode(word);
    place(row, word);
    serials[row] = serial;
}

static void read_page(int row, uint8_t *word, int shown)
{
    if (slot_of_row[row] == NONE) {
        if (shown)
            puts("empty");
        return;
    }
    fetch(row, word);
    for (int i = 0; i < data_bytes; i++)
        read_sum = read_sum * 31 + word[16 + i];
    if (!shown)
        return;
    fputs("data 0 ", stdout);
    for (int i = 0; i < data_bytes; i++)
        printf("%02x", word[16 + i]);
    putchar('\n');
}

static void take_matrix(void)
{
    for (int i = 0; i < base_rows; i++)
        for (int j = 0; j < base_columns; j++) {
            int entry = (int16_t)number(2);
            if (entry >= 0)
                layers[i][degrees[i]++] = (struct block){ j, entry };
            if (j == base_columns - base_rows && entry >= 0) {
                if (i == 0)
                    first_shift = entry;
                else if (i < base_rows - 1)
                    middle = i;
            }
        }
}

static void take_head(void)
{
    char magic[8];
    take(magic, 8);
    if (memcmp(magic, "SSDIMG01", 8) || number(1) != 1)
        refused("another image");
    dies = number(1), superblocks = number(2), pages = number(2), z = number(2);
    base_rows = number(1), base_columns = number(1);
    int read_levels = number(1);
    iterations = number(1), data_bytes = number(4), rows = number(4), seed = number(8), session = number(4);
    erased = (int16_t)number(2), programmed = (int16_t)number(2), spread = number(2), number(2);
    level = (int16_t)number(2);
    for (int i = 1; i < read_levels; i++)
        number(2);
    take_matrix();
    if (number(2) || number(2))
        refused("weak or bad superblocks");
    cells = base_columns * z, word_bytes = cells / 8, part_bytes = (base_columns - base_rows) * z / 8;
    slots = (dies - 1) * pages;
}

static void *made(size_t count, size_t size)
{
    void *memory = calloc(count, size);
    if (!memory)
        refused("no memory");
    return memory;
}

/* The levels of a block's programmed pages, each level tested. */
static void take_levels(int die, int sb, int count)
{
    for (int page = 0; page < count; page++) {
        int16_t *to = levels + page_of(die, sb, page) * cells;
        take(to, 2 * (size_t)cells);
        for (int i = 0; i < cells; i++)
            if (to[i] < -16384 || to[i] > 16383)
                refused("a level");
    }
}

/* Free and sealed superblocks, and the rows in them. */
static void take_contents(void)
{
    for (int sb = 0; sb < superblocks; sb++) {
        states[sb] = number(1), erases[sb] = number(4), used[sb] = number(4);
        if (states[sb] != FREE && states[sb] != SEALED)
            refused("another state");
        int programmed_pages[8];
        for (int die = 0; die < dies; die++)
            programmed_pages[die] = number(2);
        for (int die = 0; die < dies; die++)
            take_levels(die, sb, programmed_pages[die]);
    }
    for (int row = 0; row < rows; row++) {
        if (!number(1))
            continue;
        int sb = number(2), slot = sb * slots + number(4);
        serials[row] = number(8), slot_of_row[row] = slot, owners[slot] = row, live[sb]++;
    }
}

static void make_drive(void)
{
    int count = superblocks * slots;
    levels = made((size_t)dies * superblocks * pages, 2 * (size_t)cells);
    states = made(superblocks, sizeof *states), used = made(superblocks, sizeof *used);
    live = made(superblocks, sizeof *live), erases = made(superblocks, sizeof *erases);
    owners = made(count, sizeof *owners), slot_of_row = made(rows, sizeof *slot_of_row);
    serials = made(rows, sizeof *serials), stripe_sum = made(word_bytes, 1);
    for (int64_t i = 0; i < page_of(dies, 0, 0) * cells; i++)
        levels[i] = erased;
    memset(owners, 0xff, count * sizeof *owners);
    memset(slot_of_row, 0xff, rows * sizeof *slot_of_row);
}

static int calls_of(char *text)
{
    int calls = 0;
    for (char *at = text; (at = strchr(at, '\n')); at++)
        calls++;
    return calls;
}

static char *take_text(void)
{
    size_t room = 1 << 26, length;
    char *text = made(room + 1, 1);
    length = fread(text, 1, room, stdin);
    text[length] = 0;
    if (strncmp(text, "trace 1 1\n", 10))
        refused("another trace");
    return text + 10;
}

static void serve(char *at, int shown, uint8_t *word)
{
    for (uint64_t call = 0; *at; call++) {
        if (memcmp(at, "0 ", 2))
            refused("another actor");
        char verb = at[2];
        int row = strtol(strchr(at + 2, ' '), &at, 10);
        if (row >= rows)
            refused("another page");
        if (shown)
            printf("%d ", (int)call);
        if (verb == 'w')
            write_page(row, strtoull(at + 2, &at, 10), (session << 40) + call, word);
        else if (verb == 't')
            forget(row);
        else
            read_page(row, word, shown);
        if (shown && verb != 'r')
            puts("ok");
        if (*at++ != '\n')
            refused("another line");
    }
}

int main(int count, char **words)
{
    int shown = count == 2 && !strcmp(words[1], "all");
    take_head();
    make_drive();
    if (number(1))
        take_contents();
    char *text = take_text();
    if (shown)
        printf("actor 0 %d\n", calls_of(text));
    serve(text, shown, made(word_bytes + 8, 1));
    printf("%lld %lld %lld %llu\n", iterated, moves, picks, (unsigned long long)read_sum);
    return 0;
}
