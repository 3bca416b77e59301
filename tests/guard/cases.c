/* See cases.h. Nothing here knows the library: what a parse spells and costs follows from the way it is drawn. */
#include "cases.h"

#include <stdio.h>
#include <string.h>

/* Splitmix: any start is good, so that each case has its own. */
uint32_t draw(struct source *source, uint32_t below)
{
    uint64_t mixed = source->state += 0x9e3779b97f4a7c15u;
    mixed = (mixed ^ mixed >> 30) * 0xbf58476d1ce4e5b9u;
    mixed = (mixed ^ mixed >> 27) * 0x94d049bb133111ebu;
    return (uint32_t)((mixed ^ mixed >> 31) % below);
}

bool chance(struct source *source, uint32_t of)
{
    return draw(source, of) == 0;
}

/* ---- letters */

bool is_letter(uint32_t byte)
{
    return (byte >= WUMBYRA_FIRST_LETTER && byte <= WUMBYRA_LAST_LETTER) ||
           (byte >= WUMBYRA_FIRST_HOT_LETTER && byte <= WUMBYRA_LAST_HOT_LETTER);
}

/* Any letter from `low` to `high`, which are letters. Between them the gap may lie. */
static uint8_t draw_between(struct source *source, uint8_t low, uint8_t high)
{
    uint32_t drawn;
    do
        drawn = low + draw(source, (uint32_t)(high - low) + 1);
    while (!is_letter(drawn));
    return (uint8_t)drawn;
}

uint8_t draw_no_letter(struct source *source)
{
    if (chance(source, 16))
        return WUMBYRA_LAST_HOT_LETTER + 1;
    if (chance(source, 8))
        return (uint8_t)draw(source, WUMBYRA_FIRST_LETTER);
    return (uint8_t)(WUMBYRA_LAST_LETTER + 1 + draw(source, WUMBYRA_FIRST_HOT_LETTER - WUMBYRA_LAST_LETTER - 1));
}

uint32_t litres_of(uint8_t letter)
{
    return letter >= '0' && letter <= '9' ? (uint32_t)(letter - '0') : 0;
}

uint32_t days_of(uint8_t letter)
{
    return letter == 'D';
}

/* ---- patterns */

/* Few letters, so that leaves of a pattern share them and a tape has several parses; one of them ends a day. Of the hot side they are the
 * first, the last, and the one that is a 9 with the highest bit set, which is no litre; each of them makes a range that begins with a digit
 * go across the gap. */
static uint8_t draw_letter(struct source *source)
{
    static const uint8_t usual[] = {'0', '1', '2', '3', '4', '5', '6', '7', '8', '9', 'D', 'a', 'b', 161, 185, 254};
    if (chance(source, 12))
        return draw_between(source, WUMBYRA_FIRST_LETTER, WUMBYRA_LAST_HOT_LETTER);
    return usual[chance(source, 2) ? draw(source, sizeof usual) : 9 + draw(source, 4)];
}

/* Whether a line of this kind may stand here, with `trees` trees before it that none names and `left` lines behind it: those must
 * be able to join all trees to one. */
static bool fits(char kind, uint32_t trees, uint32_t left)
{
    switch (kind) {
    case 'S':
    case 'A': return trees >= 2;
    case 'K':
    case 'Z': return trees >= 1 && left + 1 >= trees;
    default: return left >= trees;
    }
}

/* Takes one of the trees that none names: often the last, for deep patterns. */
static uint32_t take(struct source *source, uint32_t *tree, uint32_t *trees)
{
    uint32_t at = chance(source, 3) ? draw(source, *trees) : *trees - 1;
    uint32_t place = tree[at];
    *trees -= 1;
    memmove(tree + at, tree + at + 1, (*trees - at) * sizeof *tree);
    return place;
}

/* An account: of one digit, near a limit, or any. */
static uint32_t draw_account(struct source *source)
{
    static const uint8_t near[] = {8, 9, 10, 11, 19, 20, 90, 99, 100, 101, 109, 110, 190, 199, 200};
    switch (draw(source, 3)) {
    case 0: return 1 + draw(source, 9);
    case 1: return near[draw(source, sizeof near)];
    default: return 1 + draw(source, MAX_ACCOUNT);
    }
}

const char *draw_no_account(struct source *source)
{
    static const char *const none[] = {"0",   "00",  "01",  "09",  "010", "020", "099",  "201",  "202", "209", "210", "255", "256", "265",
                                       "299", "300", "456", "999", "1000", "2000", "2001", "0200", "",    "--",  "-1",  "1-",  "10-", "+9",
                                       "+10", " 9",  "9 ",  "20 ", "2 0", "1a",  "a",    "1:",   "1/",  "9\r", "1.0"};
    return none[draw(source, sizeof none / sizeof *none)];
}

void write_text(struct pattern *pattern, uint32_t line, const char *account)
{
    char *end = (char *)pattern->text;
    pattern->lettered = WUMBYRA_MAX_LINES;
    for (uint32_t i = 0; i < pattern->count; i++) {
        const struct node *node = &pattern->node[i];
        end += sprintf(end, "%u\t%c\t", i, node->kind);
        if (i == line)
            end += sprintf(end, "%s", account);
        else if (node->account == 0)
            *end++ = '-';
        else
            end += sprintf(end, "%u", node->account);
        switch (node->kind) {
        case 'L': end += sprintf(end, "\t%c", node->low); break;
        case 'R': end += sprintf(end, "\t%c\t%c", node->low, node->high); break;
        case 'K':
        case 'Z': end += sprintf(end, "\t%u", node->first); break;
        case 'S':
        case 'A': end += sprintf(end, "\t%u\t%u", node->first, node->second); break;
        default: break;
        }
        if (node->kind == 'L' || node->kind == 'R') {
            pattern->lettered = i;
            pattern->letter_at = (size_t)(end - (char *)pattern->text) - 1;
        }
        *end++ = '\n';
    }
    pattern->size = (size_t)(end - (char *)pattern->text);
}

/* Puts account 9 above other accounts: at one of the upper lines, and others at most of the lines below it. */
static void put_stale(struct source *source, struct pattern *pattern)
{
    bool below[WUMBYRA_MAX_LINES] = {false};
    const uint32_t top = pattern->count - 1 - draw(source, (pattern->count + 1) / 2);
    below[top] = true;
    for (uint32_t i = top + 1; i-- > 0;) {
        struct node *node = &pattern->node[i];
        if (!below[i])
            continue;
        if (strchr("SAKZ", node->kind) != NULL)
            below[node->first] = true;
        if (strchr("SA", node->kind) != NULL)
            below[node->second] = true;
        if (i == top)
            node->account = STALE;
        else if (!chance(source, 3))
            node->account = draw_account(source);
    }
}

void draw_pattern(struct source *source, struct pattern *pattern, bool endless)
{
    static const char *const mixes[] = {"ELLRRSSAAKZ", "ELRSAKKZZ", "EEELSSSSAKZ", "ELAAAAASZ", "RRRRSSSSKZ", "ELRSAK", "ELRSAZ"};
    const char *mix = endless ? "EEKZSA" : mixes[draw(source, sizeof mixes / sizeof *mixes)];
    const uint32_t kinds = (uint32_t)strlen(mix);
    uint32_t tree[WUMBYRA_MAX_LINES], trees = 0, joined;

    pattern->count = chance(source, 3) ? 1 + draw(source, WUMBYRA_MAX_LINES) : 2 + draw(source, 12);
    /* The line in which all trees are one: mostly the last but one, so that the last must be a star, as it is of meter tapes. */
    joined = pattern->count > 1 && !chance(source, 4) ? pattern->count - 2 : pattern->count - 1;
    for (uint32_t i = 0; i < pattern->count; i++) {
        struct node *node = &pattern->node[i];
        do
            node->kind = mix[draw(source, kinds)];
        while (!fits(node->kind, trees, i < joined ? joined - i : 0));
        node->account = chance(source, 3) ? draw_account(source) : 0;
        node->low = draw_letter(source);
        node->high = draw_letter(source);
        if (node->high < node->low)
            node->high = node->low;
        if (strchr("SAKZ", node->kind) != NULL)
            node->first = take(source, tree, &trees);
        if (strchr("SA", node->kind) != NULL)
            node->second = take(source, tree, &trees);
        tree[trees++] = i;
    }
    if (chance(source, 3))
        put_stale(source, pattern);
    write_text(pattern, WUMBYRA_MAX_LINES, NULL);
}

/* ---- parses */

struct walk {
    struct source *source;
    const struct pattern *pattern;
    struct parse *parse;
    uint32_t rounds, on;
};

void put_bits(struct parse *parse, uint32_t bits, uint32_t count)
{
    while (count-- > 0) {
        uint32_t at = parse->bits++;
        if (at % 8 == 0)
            parse->code[at / 8] = 0;
        parse->code[at / 8] |= (uint8_t)((bits >> count & 1) << (7 - at % 8));
    }
}

void put_byte_at(uint8_t *code, uint32_t at, uint8_t byte)
{
    for (uint32_t i = 0; i < 8; i++, at++) {
        const uint8_t bit = (uint8_t)(0x80 >> at % 8);
        code[at / 8] = (uint8_t)(byte >> (7 - i) & 1 ? code[at / 8] | bit : code[at / 8] & ~bit);
    }
}

static void put_letter(struct parse *parse, uint8_t letter, uint32_t account)
{
    parse->accounts[parse->count] = (uint8_t)account;
    parse->letters[parse->count++] = letter;
    parse->litres[account] += litres_of(letter);
}

/* Whether another round may be gone through. Behind the last one at most 64 more lines are visited, for which there is room. */
static bool another_round(struct walk *walk)
{
    return walk->rounds > 0 && walk->parse->count < LETTER_ROOM - 128 && walk->parse->bits < BIT_ROOM - 1024 &&
           !chance(walk->source, walk->on + 1);
}

static void visit(struct walk *walk, uint32_t place, uint32_t account);

/* `stop` is the bit that ends the rounds: 1 of a star, 0 of a lazy one. The other bit stands before each round. */
static void visit_rounds(struct walk *walk, uint32_t place, uint32_t account, uint32_t stop)
{
    struct parse *parse = walk->parse;
    while (another_round(walk)) {
        uint32_t before = parse->count;
        walk->rounds--;
        put_bits(parse, 1 - stop, 1);
        visit(walk, place, account);
        parse->empty_round = parse->empty_round || parse->count == before;
    }
    put_bits(parse, stop, 1);
}

static void visit_kind(struct walk *walk, const struct node *node, uint32_t account)
{
    uint32_t drawn;
    switch (node->kind) {
    case 'L': put_letter(walk->parse, node->low, account); break;
    case 'R':
        drawn = draw_between(walk->source, node->low, node->high);
        if (node->low <= WUMBYRA_LAST_LETTER && node->high >= WUMBYRA_FIRST_HOT_LETTER)
            walk->parse->across = walk->parse->bits;
        put_bits(walk->parse, drawn, 8);
        put_letter(walk->parse, (uint8_t)drawn, account);
        break;
    case 'S':
        visit(walk, node->first, account);
        visit(walk, node->second, account);
        break;
    case 'A':
        drawn = draw(walk->source, 2);
        put_bits(walk->parse, drawn, 1);
        visit(walk, drawn == 0 ? node->first : node->second, account);
        break;
    case 'K': visit_rounds(walk, node->first, account, 1); break;
    case 'Z': visit_rounds(walk, node->first, account, 0); break;
    default: break;
    }
}

/* Where litres in a node go, if those of the node above it go to `above`. Once that is account 9 it stays so, however deep they stand;
 * otherwise the nearest account has them. */
static uint32_t account_in(uint32_t above, uint32_t own)
{
    return above == STALE || own == 0 ? above : own;
}

static void visit(struct walk *walk, uint32_t place, uint32_t account)
{
    const struct node *node = &walk->pattern->node[place];
    struct parse *parse = walk->parse;
    const uint32_t before = parse->count;
    uint32_t number = 0;
    if (place == parse->watched) {
        number = parse->visits++;
        parse->start[number] = (uint16_t)before;
    }
    visit_kind(walk, node, account_in(account, node->account));
    if (place == parse->watched)
        parse->length[number] = (uint16_t)(parse->count - before);
}

void draw_parse(struct source *source, const struct pattern *pattern, struct parse *parse, uint32_t rounds, uint32_t on)
{
    struct walk walk = {source, pattern, parse, rounds, on};
    parse->bits = parse->count = parse->visits = 0;
    parse->empty_round = false;
    parse->across = BIT_ROOM;
    memset(parse->litres, 0, sizeof parse->litres);
    parse->watched = draw(source, pattern->count);
    visit(&walk, pattern->count - 1, 0);
}

/* ---- where a tape breaks */

enum { END = WUMBYRA_MAX_LINES };

/* For each line the one that is read next when it is done, or END. Backwards the parts of an `S` change places. */
static void put_next(const struct pattern *pattern, bool backwards, uint32_t *next)
{
    next[pattern->count - 1] = END;
    for (uint32_t i = pattern->count; i-- > 0;) { /* a line is named by a later one, whose own is known by then */
        const struct node *node = &pattern->node[i];
        switch (node->kind) {
        case 'S':
            next[backwards ? node->second : node->first] = backwards ? node->first : node->second;
            next[backwards ? node->first : node->second] = next[i];
            break;
        case 'A': next[node->first] = next[node->second] = next[i]; break;
        case 'K':
        case 'Z': next[node->first] = i; break;
        default: break;
        }
    }
}

struct reading {
    const struct pattern *pattern;
    bool backwards;
    uint32_t next[WUMBYRA_MAX_LINES];
};

/* Marks a line and all that may be read in its place without a letter. A line that is marked is left: so rounds without a letter end. */
static void enter(const struct reading *reading, uint32_t line, bool *here)
{
    const struct node *node = &reading->pattern->node[line == END ? 0 : line];
    if (here[line])
        return;
    here[line] = true;
    if (line == END)
        return;
    switch (node->kind) {
    case 'E': enter(reading, reading->next[line], here); break;
    case 'S': enter(reading, reading->backwards ? node->second : node->first, here); break;
    case 'A':
        enter(reading, node->first, here);
        enter(reading, node->second, here);
        break;
    case 'K':
    case 'Z':
        enter(reading, node->first, here);
        enter(reading, reading->next[line], here);
        break;
    default: break;
    }
}

static bool reads(const struct node *node, uint8_t letter)
{
    return (node->kind == 'L' && letter == node->low) || (node->kind == 'R' && letter >= node->low && letter <= node->high);
}

/* How many letters are read, from the first on, or from the last on, until no line is left to read on. Every line can read something, if
 * only no letter, so what is read begins a tape. */
static uint32_t letters_read(const struct pattern *pattern, const uint8_t *letters, uint32_t size, bool backwards)
{
    struct reading reading = {pattern, backwards, {0}};
    bool here[END + 1] = {false};
    put_next(pattern, backwards, reading.next);
    enter(&reading, pattern->count - 1, here);
    for (uint32_t i = 0; i < size; i++) {
        bool behind[END + 1] = {false}, any = false;
        for (uint32_t line = 0; line < pattern->count; line++)
            if (here[line] && reads(&pattern->node[line], letters[backwards ? size - 1 - i : i])) {
                enter(&reading, reading.next[line], behind);
                any = true;
            }
        if (!any)
            return i;
        memcpy(here, behind, sizeof here);
    }
    return size;
}

uint32_t reach_of(const struct pattern *pattern, const uint8_t *letters, uint32_t size)
{
    return letters_read(pattern, letters, size, false);
}

uint32_t resume_of(const struct pattern *pattern, const uint8_t *letters, uint32_t size)
{
    return size - letters_read(pattern, letters, size, true);
}

/* ---- dates */

/* Not by a table of months, which the library has. Years begin in March here, so that a leap day is the last of a year, and from there on
 * five months have 153 days. The first year is that of March 1996; every fourth one has a day more, since 2100 is not reached. */
enum { MARCH_1996 = 1401 /* days before 1 January 2000 */, FOUR_YEARS = 1461 };

uint32_t date_of(uint32_t day)
{
    const uint32_t days = day + MARCH_1996;
    const uint32_t year = (4 * days + 3) / FOUR_YEARS, of_year = days - FOUR_YEARS * year / 4;
    const uint32_t month = (5 * of_year + 2) / 153, of_month = of_year - (153 * month + 2) / 5;
    return WUMBYRA_DATE(1996 + year + (month >= 10), month < 10 ? month + 3 : month - 9, of_month + 1);
}

uint32_t day_of(uint32_t date)
{
    const uint32_t month = date / 100 % 100, of_month = date % 100, year = date / 10000 - (month < 3);
    const uint32_t of_year = (153 * (month < 3 ? month + 9 : month - 3) + 2) / 5 + of_month - 1;
    uint32_t day;
    if (date < 20000101 || date > 20991231 || month < 1 || month > 12 || of_month < 1)
        return DAYS;
    day = FOUR_YEARS * (year - 1996) / 4 + of_year - MARCH_1996;
    return date_of(day) == date ? day : DAYS; /* 31 April is counted as 1 May, and is none */
}

uint32_t draw_day(struct source *source)
{
    const uint32_t year = 20000000 + 10000 * draw(source, 100);
    switch (draw(source, 6)) {
    case 0: return draw(source, 4);
    case 1: return DAYS - 1 - draw(source, chance(source, 2) ? 4 : 60);
    case 2: return day_of(year + 301) - 1 - draw(source, 3);
    case 3: return day_of(year + 101 + 100 * draw(source, 12)) + draw(source, 2);
    case 4: return day_of(year + 1231) - draw(source, 2);
    default: return draw(source, DAYS);
    }
}

uint32_t draw_no_date(struct source *source)
{
    static const uint32_t nearly[] = {0, 19991231, 21000101, 20000100, 20240001, 20241301, 20230229, 21000228};
    uint32_t date = date_of(draw_day(source));
    do
        switch (draw(source, 5)) {
        case 0: date = nearly[draw(source, sizeof nearly / sizeof *nearly)]; break;
        case 1: date = date / 100 * 100 + draw(source, 100); break;
        case 2: date = date / 10000 * 10000 + 100 * draw(source, 100) + date % 100; break;
        case 3: date = date % 10000 + 10000 * draw(source, 429496); break;
        default: date = draw(source, UINT32_MAX); break;
        }
    while (day_of(date) < DAYS);
    return date;
}

/* ---- damage */

static uint8_t draw_byte(struct source *source)
{
    static const uint8_t telling[] = {0,   9,   10,  13,  32,  33,  126, 127, 128, 160,
                                      161, 254, 255, '-', '0', '1', 'E', 'K', 'Z', 'z'};
    return chance(source, 2) ? telling[draw(source, sizeof telling)] : (uint8_t)draw(source, 256);
}

size_t damage(struct source *source, uint8_t *bytes, size_t size, size_t room)
{
    const size_t at = draw(source, (uint32_t)size + 1);
    const size_t behind = size - at;
    switch (draw(source, 6)) {
    case 0: return at;
    case 1: return 0;
    case 2:
        if (behind == 0)
            return size;
        memmove(bytes + at, bytes + at + 1, behind - 1);
        return size - 1;
    case 3:
        if (size == room)
            return size;
        memmove(bytes + at + 1, bytes + at, behind);
        bytes[at] = draw_byte(source);
        return size + 1;
    case 4:
        if (size + behind > room)
            return size;
        memmove(bytes + size, bytes + at, behind);
        return size + behind;
    default:
        if (behind > 0 && chance(source, 2))
            bytes[at] = draw_byte(source);
        else if (behind > 0)
            bytes[at] ^= (uint8_t)(1u << draw(source, 8));
        return size;
    }
}
