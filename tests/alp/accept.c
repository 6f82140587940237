/* From C: a list beside the one that is due, which uramsheg_detect gives. Which finding and which index, by a plain rule of the header's words; each refusal, alone
 * and in its order; that nothing lent is changed. Says what failed. */
#include <math.h>

#include "accept.h"

enum { GUARD = 49, FILL = 0xa5, SPARE = 4 };

/* What a call is given beside the bytes. */
typedef struct { size_t rows, cols, octave, set_length, level[4], length; float threshold[5]; } given;

/* What a call answers. */
typedef struct { uint32_t number, finding; uint64_t value; } answer;

/* The list lies at an odd address, between bytes that are no part of it. */
static uint8_t lent[GUARD + SPOT * (MOST + SPARE) + GUARD], *const list = lent + GUARD;

/* What a call on the present map is given that is answered, without a list. */
static given usual;

/* How often each finding came, and 5 in place of one. */
static unsigned came[6];

/* The same with so many records. */
static given with(size_t count) {
    given g = usual;
    g.length = SPOT * count;
    return g;
}

/* Whether a call answers this, writes *finding and *value, and changes nothing else. */
static bool answers(given g, answer a) {
    static uint8_t set_before[SET], lent_before[sizeof lent];
    static float level_before[4][PIXELS];
    uint32_t finding = 77;
    uint64_t value = 77;
    memcpy(set_before, set, sizeof set);
    memcpy(level_before, level, sizeof level);
    memcpy(lent_before, lent, sizeof lent);
    uint32_t number = uramsheg_accept(set, g.set_length, g.threshold[0], g.threshold[1], g.threshold[2], g.threshold[3], g.threshold[4], g.rows, g.cols, g.octave,
                                      level[0], g.level[0], level[1], g.level[1], level[2], g.level[2], level[3], g.level[3], list, g.length, &finding, &value);
    came[number == 5 ? 5 : finding % 5]++;
    return number == a.number && finding == a.finding && value == a.value && !memcmp(set, set_before, sizeof set)
        && !memcmp(level, level_before, sizeof level) && !memcmp(lent, lent_before, sizeof lent);
}

static float float_at(const uint8_t *record, int word) {
    float x;
    memcpy(&x, record + 4 * word, 4);
    return x;
}

static uint32_t key_of(const uint8_t *record) {
    uint32_t key;
    memcpy(&key, record + KEY, 4);
    return key;
}

/* Where a record stands in the order of a list. */
static uint64_t order(const uint8_t *record) {
    return 2 * (uint64_t)key_of(record) + record[POLARITY];
}

/* Whether a record is bad, by the header's words. */
static bool is_bad(const uint8_t *record, size_t rows, size_t cols) {
    float x = float_at(record, 0), y = float_at(record, 1);
    bool is_good = true;
    for (int word = 0; word < 12; word++)
        if (word < 8 || word > 9) is_good = is_good && isfinite(float_at(record, word));
    is_good = is_good && 0 <= x && x <= (float)cols - 1 && 0 <= y && y <= (float)rows - 1 && key_of(record) < rows * cols;
    is_good = is_good && record[36] <= 5 && (record[37] == 1 || record[37] == 2) && record[POLARITY] <= 1 && record[39] == 0;
    return !(is_good && fabsf(float_at(record, 10)) <= 0.6f && fabsf(float_at(record, 11)) <= 0.6f);
}

/* What is answered of the list's first records, by the header's words. */
static answer plain(size_t count) {
    for (size_t i = 0; i < count; i++)
        if (is_bad(list + SPOT * i, usual.rows, usual.cols)) return (answer){5, 0, i};
    for (size_t i = 0; i < count || i < due_count; i++) {
        const uint8_t *one = list + SPOT * i, *other = due + SPOT * i;
        if (i == due_count) return (answer){0, URAMSHEG_LIST_EXTRA, i};
        if (i == count) return (answer){0, URAMSHEG_LIST_ABSENT, i};
        if (order(one) < order(other)) return (answer){0, URAMSHEG_LIST_EXTRA, i};
        if (order(one) > order(other)) return (answer){0, URAMSHEG_LIST_ABSENT, i};
        if (memcmp(one, other, SPOT)) return (answer){0, URAMSHEG_LIST_DIFFERENT, i};
    }
    return (answer){0, URAMSHEG_LIST_ACCEPTED, 0};
}

/* Whether the list's first records are answered as the rule says, and are bad exactly where the join says so. */
static bool goes_by_rule(size_t count) {
    static uint8_t sized[URAMSHEG_SIZED_BYTES * (MOST + SPARE)];
    uint64_t value = 77;
    answer a = plain(count);
    uint32_t joined = uramsheg_join(set, SET, usual.rows, usual.cols, list, SPOT * count, sized, sizeof sized, &value);
    return joined == a.number && (!joined || value == a.value) && answers(with(count), a);
}

/* The same, where the rule is to say this. */
static bool is_found(size_t count, uint32_t finding, uint64_t index) {
    answer a = plain(count);
    return a.number == 0 && a.finding == finding && a.value == index && goes_by_rule(count);
}

/* The map with dozens of spots. */
static void use_map(void) {
    make_map();
    usual = (given){ROWS, COLS, 0, SET, {PIXELS, PIXELS, PIXELS, PIXELS}, 0, {0}};
    memcpy(usual.threshold, thresholds, sizeof thresholds);
}

/* Map M, whose only spot is at (4, 4), and its list, which the header gives. */
static void use_map_m(void) {
    static const uint8_t record[SPOT] = {[2] = 0x90, 0x40, [6] = 0x80, 0x40, [11] = 0x40, [14] = 0x80, 0x40, [18] = 0x80, 0xbf, [22] = 0x80, 0x40,
                                         [32] = 44, [37] = 1, 1, [43] = 0x3f};
    usual = (given){9, 10, 0, SET, {90, 90, 90, 90}, 0, {1, 1, 10, 1.9027314f, 4.1498866f}};
    set_t(set);
    memset(level, 0, sizeof level);
    level[0][4 * 9 + 4] = 0.25f;
    level[1][4 * 9 + 4] = -0.25f;
    memcpy(due, record, SPOT);
    due_count = 1;
}

/* Makes the list the due one, and what is behind it no records. */
static void fill(void) {
    memset(lent, FILL, sizeof lent);
    memcpy(list, due, SPOT * due_count);
}

static void take_out(size_t count, size_t i) {
    memmove(list + SPOT * i, list + SPOT * (i + 1), SPOT * (count - i - 1));
}

static void put_in(size_t count, size_t i, const uint8_t record[SPOT]) {
    memmove(list + SPOT * (i + 1), list + SPOT * i, SPOT * (count - i));
    memcpy(list + SPOT * i, record, SPOT);
}

/* A word of a record of the list. */
static void put_word(size_t i, int word, uint32_t bits) {
    memcpy(list + SPOT * i + 4 * word, &bits, 4);
}

/* The due list, and each first part of it; a list of none. */
static bool ends_early(void) {
    fill();
    bool holds = is_found(due_count, URAMSHEG_LIST_ACCEPTED, 0);
    for (size_t count = 0; count < due_count; count++) holds = holds && is_found(count, URAMSHEG_LIST_ABSENT, count);
    return holds;
}

/* One record left out: the one that is then missing is due, or the list ends. */
static bool misses_one(void) {
    bool holds = true;
    for (size_t i = 0; i < due_count; i++) {
        fill();
        take_out(due_count, i);
        holds = holds && is_found(due_count - 1, URAMSHEG_LIST_ABSENT, i);
    }
    return holds;
}

/* A record put in a second time, at any place: one before its own makes the one that is due there absent, and behind it the second is extra. */
static bool has_one_twice(void) {
    bool holds = true;
    for (size_t i = 0; i < due_count; i++)
        for (size_t at = 0; at <= due_count && holds; at++) {
            fill();
            put_in(due_count, at, due + SPOT * i);
            /* at its own place the first of the two is the due one */
            holds = at < i ? is_found(due_count + 1, URAMSHEG_LIST_ABSENT, at) : is_found(due_count + 1, URAMSHEG_LIST_EXTRA, at == i ? at + 1 : at);
        }
    return holds;
}

/* A record moved from any place to any place. */
static bool has_one_moved(void) {
    bool holds = true;
    for (size_t i = 0; i < due_count; i++)
        for (size_t to = 0; to < due_count && holds; to++) {
            fill();
            take_out(due_count, i);
            put_in(due_count - 1, to, due + SPOT * i);
            holds = i == to ? is_found(due_count, URAMSHEG_LIST_ACCEPTED, 0) : is_found(due_count, URAMSHEG_LIST_ABSENT, i < to ? i : to);
        }
    return holds;
}

/* A good record at every third pixel, by turns of either polarity, put in at eight places of the list. */
static bool has_a_strange_one(void) {
    bool holds = true;
    for (uint32_t key = 0; key < PIXELS && holds; key += 3)
        for (size_t i = 0; i < 8; i++) {
            size_t at = (key / 6 + i * due_count / 8) % (due_count + 1);
            uint8_t strange[SPOT];
            memcpy(strange, due, SPOT);
            memcpy(strange + KEY, &key, 4);
            strange[POLARITY] = key / 3 % 2;
            fill();
            put_in(due_count, at, strange);
            holds = holds && goes_by_rule(due_count + 1);
        }
    return holds;
}

/* At a pixel that lists both: without the minimum or the maximum, with the two turned round, and with one of them as the other. */
static bool knows_pairs(void) {
    size_t pairs = 0;
    bool holds = true;
    for (size_t i = 0; i + 1 < due_count; i++) {
        if (key_of(due + SPOT * i) != key_of(due + SPOT * (i + 1))) continue;
        pairs++;
        fill();
        put_in(due_count, i, due + SPOT * (i + 1));
        take_out(due_count + 1, i + 2);
        holds = holds && is_found(due_count, URAMSHEG_LIST_ABSENT, i);
        fill();
        list[SPOT * i + POLARITY] = 1;
        holds = holds && is_found(due_count, URAMSHEG_LIST_ABSENT, i);
        fill();
        list[SPOT * (i + 1) + POLARITY] = 0;
        holds = holds && is_found(due_count, URAMSHEG_LIST_EXTRA, i + 1);
    }
    return holds && pairs > 10;
}

/* Every byte of a record in the midst of the list with every other value; each finding but yes comes so often at least. */
static bool knows_bytes(unsigned often) {
    size_t from = SPOT * (due_count / 2);
    bool holds = true;
    memset(came, 0, sizeof came);
    for (size_t at = from; at < from + SPOT; at++)
        for (unsigned off = 1; off < 256 && holds; off++) {
            fill();
            list[at] ^= (uint8_t)off;
            holds = goes_by_rule(due_count);
        }
    return holds && came[1] == 0 && came[2] >= often && came[3] >= often && came[4] > 5000 && came[5] > 1000;
}

/* Words at the borders of what a record may hold, at each place of a record. */
static bool knows_words(void) {
    static const uint32_t words[] = {0, 1, 0x80000000, 0x3f199999, 0x3f19999a, 0x3f19999b, 0xbf19999a, 0xbf19999b, 0x422c0000, 0x422c0001, 0x42500000, 0x42500001,
                                     0x7f7fffff, 0xff7fffff, 0x7f800000, 0xff800000, 0x7fc00000, 0xff800001, PIXELS - 1, PIXELS, 0x010000, 0x010100, 0x000205,
                                     0x010206, UINT32_MAX};
    bool holds = true;
    memset(came, 0, sizeof came);
    for (size_t i = 0; i < due_count; i += 7)
        for (int word = 0; word < 12; word++)
            for (size_t w = 0; w < sizeof words / sizeof *words && holds; w++) {
                fill();
                put_word(i, word, words[w]);
                holds = goes_by_rule(due_count);
            }
    return holds && came[2] > 10 && came[3] > 10 && came[4] > 300 && came[5] > 300;
}

/* A list whose octave is another is different, and the due list of that octave is another too. */
static bool goes_by_octave(void) {
    bool holds = true;
    for (size_t octave = 0; octave < 6; octave++) {
        given g = with(due_count);
        g.octave = octave;
        fill();
        holds = holds && answers(g, (answer){0, octave ? URAMSHEG_LIST_DIFFERENT : URAMSHEG_LIST_ACCEPTED, 0});
        holds = holds && is_listed(octave);
        fill();
        holds = holds && answers(g, (answer){0, URAMSHEG_LIST_ACCEPTED, 0});
        holds = is_listed(0) && holds;
    }
    return holds;
}

/* A bad record is 5 with its own index wherever it stands: before the first difference, behind it and behind the last due record; of two, the first. */
static bool refuses_bad_records(void) {
    bool holds = true;
    for (size_t bad = 0; bad < due_count + 2; bad++)
        for (size_t i = 0; i < due_count && holds; i++) {
            fill();
            memcpy(list + SPOT * due_count, due, 2 * SPOT);
            list[SPOT * i + 16] ^= 1;
            list[SPOT * bad + 39] = 1;
            list[SPOT * (due_count + 1) + 36] = 6;
            holds = plain(due_count + 2).value == bad && goes_by_rule(due_count + 2);
        }
    return holds;
}

/* Lists of every length: 5 with the number of whole records but for whole ones, and what is behind a list is not looked at. */
static bool takes_whole_records(void) {
    bool holds = true;
    for (size_t length = 0; length <= 200; length++) {
        given g = with(0);
        g.length = length;
        fill();
        memset(list + length, FILL, SPOT);
        holds = holds && answers(g, length % SPOT ? (answer){5, 0, length / SPOT} : (answer){0, URAMSHEG_LIST_ABSENT, length / SPOT});
    }
    return holds;
}

/* What may be wrong with a call, in the order in which it is looked at; last, that the list is another, which is no refusal. */
enum { SIDE = 1, LEVEL = 2, OCTAVE = 4, THRESHOLD = 8, BAD_SET = 16, LENGTH = 32, BAD_RECORD = 64, OTHER = 128, ALL = 256 };

static answer first_of(unsigned wrong, given g, size_t bad) {
    static const uint32_t numbers[5] = {1, 2, 3, 8, 4};
    for (int i = 0; i < 5; i++)
        if (wrong >> i & 1) return (answer){numbers[i], 0, 0};
    if (wrong & LENGTH) return (answer){5, 0, g.length / SPOT};
    if (wrong & BAD_RECORD) return (answer){5, 0, bad};
    return wrong & OTHER ? (answer){0, URAMSHEG_LIST_DIFFERENT, 1} : (answer){0, URAMSHEG_LIST_ACCEPTED, 0};
}

/* A call with some things wrong with it, each in one of several ways. Each 5 has another value beside it. */
static bool refused_first(unsigned wrong, size_t way) {
    static const size_t lengths[4] = {-1, 1, -47, 17}, places[8] = {0, 0, 516, 520, 524, 525, 526, 527};
    given g = with(due_count);
    size_t bad = 2 + way;
    fill();
    if (wrong & SIDE) *(way % 2 ? &g.rows : &g.cols) = way / 2 % 2 ? 4097 : SIZE_MAX;
    if (wrong & LEVEL) g.level[way % 4] = way / 4 ? PIXELS - 1 : 0;
    if (wrong & OCTAVE) g.octave = way % 2 ? 6 : SIZE_MAX;
    if (wrong & THRESHOLD) g.threshold[way % 5] = way % 2 ? NAN : -NAN;
    if (wrong & BAD_SET && way < 2) g.set_length -= 1 + way * (SET - 1);
    if (wrong & BAD_SET && way > 1) set[places[way]] = 9;
    if (wrong & LENGTH) g.length += lengths[way % 4];
    if (wrong & BAD_RECORD) list[SPOT * bad + 38] = list[SPOT * (bad + 1) + 39] = 2;
    if (wrong & OTHER) list[SPOT + 20] ^= 1;
    bool holds = answers(g, first_of(wrong, g, bad));
    set_of_cubics(set); /* as it was */
    return holds;
}

static bool orders(void) {
    bool holds = true;
    for (unsigned wrong = 0; wrong < ALL; wrong++)
        for (size_t way = 0; way < 8; way++) holds = holds && refused_first(wrong, way);
    return holds;
}

/* A NaN is refused at each threshold; an infinity is not, but under an infinite peak nothing is due. */
static bool takes_thresholds(void) {
    bool holds = true;
    for (int i = 0; i < 5; i++) {
        given g = with(due_count);
        fill();
        g.threshold[i] = NAN;
        holds = holds && answers(g, (answer){8, 0, 0});
    }
    given g = with(0);
    g.threshold[0] = INFINITY;
    holds = holds && answers(g, (answer){0, URAMSHEG_LIST_ACCEPTED, 0});
    g.length = SPOT;
    return holds && answers(g, (answer){0, URAMSHEG_LIST_EXTRA, 0});
}

/* Any few edits of the due list, one after the other. */
static bool knows_any_list(void) {
    uint64_t state = 1;
    bool holds = true;
    memset(came, 0, sizeof came);
    for (int round = 0; round < 6000 && holds; round++) {
        size_t count = due_count;
        fill();
        for (int edits = round % 4; edits > 0; edits--) {
            state = state * 6364136223846793005 + 1442695040888963407;
            size_t i = (state >> 33) % count, j = (state >> 40) % due_count;
            unsigned kind = state >> 50 & 7;
            if (kind == 0) take_out(count--, i);
            if (kind == 1 && count < due_count + SPARE) put_in(count++, i, due + SPOT * j);
            if (kind == 2) memcpy(list + SPOT * i, due + SPOT * j, SPOT);
            if (kind == 3) count = i + 1;
            if (kind == 4) list[SPOT * i + POLARITY] ^= 1;
            if (kind == 5) put_word(i, 8, (uint32_t)(state >> 20) % PIXELS);
            if (kind > 5) list[SPOT * i + (state >> 54) % SPOT] ^= (uint8_t)(1u << (state >> 60) % 8);
        }
        holds = goes_by_rule(count);
    }
    for (int i = 1; i < 6; i++) holds = holds && came[i] > 300;
    return holds;
}

/* Maps whose sides are too short for a judged pixel, or just long enough: the empty list is due for a map of zeros, and a good record is extra. */
static bool takes_sides(void) {
    static const size_t sides[7] = {0, 1, 8, 9, 4096, 4097, SIZE_MAX};
    static const uint8_t first[SPOT] = {[37] = 1}; /* at the first pixel, of index 1 */
    bool holds = true;
    memset(level, 0, sizeof level);
    memset(lent, FILL, sizeof lent);
    memcpy(list, first, SPOT);
    for (int i = 0; i < 49; i++) {
        size_t rows = sides[i / 7], cols = sides[i % 7], pixels = rows * cols;
        given g = {rows, cols, 0, SET, {pixels, pixels, pixels, pixels}, 0, {0, 0, 12.1f, -1, 9}};
        bool is_large = rows > 4096 || cols > 4096;
        if (!is_large && pixels > PIXELS) continue;
        holds = holds && answers(g, is_large ? (answer){1, 0, 0} : (answer){0, URAMSHEG_LIST_ACCEPTED, 0});
        g.length = SPOT;
        holds = holds && answers(g, is_large ? (answer){1, 0, 0} : pixels ? (answer){0, URAMSHEG_LIST_EXTRA, 0} : (answer){5, 0, 0});
    }
    return holds;
}

/* Whether this is found of map M's record with another key and another polarity. */
static bool is_found_with(uint32_t key, uint8_t polarity, uint32_t finding) {
    fill();
    put_word(0, 8, key);
    list[POLARITY] = polarity;
    return is_found(1, finding, 0);
}

/* Whether this is answered of so many records on map M, each its own one. */
static bool answers_m(size_t count, uint32_t finding, uint64_t index) {
    fill();
    memcpy(list + SPOT, due, SPOT);
    return answers(with(count), (answer){0, finding, index});
}

static void map_m(void) {
    use_map_m();
    expect("accept: map M's own list is accepted", answers_m(1, 1, 0));
    expect("accept: of an empty list the first record is absent", answers_m(0, 3, 0));
    expect("accept: a record behind the last is extra", answers_m(2, 2, 1));
    expect("accept: a smaller key or polarity is extra",
           is_found_with(44, 0, 2) && is_found_with(43, 1, 2) && is_found_with(43, 0, 2) && is_found_with(0, 1, 2));
    expect("accept: a larger key is absent, whatever the polarity", is_found_with(45, 1, 3) && is_found_with(45, 0, 3) && is_found_with(89, 1, 3));
    fill();
    list[47] = 0x80; /* delta y is -0.0, with which a record is not bad */
    expect("accept: -0 for 0 is different", is_found(1, 4, 0));
    expect("accept: every byte of map M's record with every value", knows_bytes(40));
    level[0][4 * 9 + 4] = NAN;
    expect("accept: without a spot the empty list is accepted, and any record extra", answers_m(0, 1, 0) && answers_m(1, 2, 0));
}

/* Whether the map has as many spots as the checks ask for. */
static bool is_made(void) {
    use_map();
    return is_listed(0) && due_count > 48 && due_count < MOST;
}

int main(void) {
    map_m();
    expect("accept: the map with dozens of spots", is_made());
    expect("accept: the due list is accepted, and one that ends early is absent at its count", ends_early());
    expect("accept: a record that is left out is absent, whichever", misses_one());
    expect("accept: a record that stands twice, at any place", has_one_twice());
    expect("accept: a record that is moved from any place to any place", has_one_moved());
    expect("accept: a record of another key or polarity put in, at many places", has_a_strange_one());
    expect("accept: a pixel's minimum and maximum, turned round and as one another", knows_pairs());
    expect("accept: every byte of one record of many with every value", knows_bytes(5));
    expect("accept: words at the borders of what a record may hold", knows_words());
    expect("accept: any edits of the due list", knows_any_list());
    expect("accept: the octave is the records' too", goes_by_octave());
    expect("accept: a bad record is refused wherever it stands", refuses_bad_records());
    expect("accept: a list is whole records, and nothing behind it is looked at", takes_whole_records());
    expect("accept: of all that is wrong the first is answered", orders());
    expect("accept: thresholds that are NaN or infinite", takes_thresholds());
    expect("accept: sides of 0, 8, 9 and above 4,096", takes_sides());
    expect("accept: the findings are the header's", URAMSHEG_NO_FINDING == 0 && URAMSHEG_LIST_ACCEPTED == 1 && URAMSHEG_LIST_EXTRA == 2 && URAMSHEG_LIST_ABSENT == 3
                                                        && URAMSHEG_LIST_DIFFERENT == 4);
    return failures != 0;
}
