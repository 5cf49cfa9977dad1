/* climb.c - looks for the image whose load takes the most instructions, by climbing: begins with the worst one known and
 * with programs that are likely to be dear (a ladder of calls that leads each task into a common part at every depth, and
 * some orders of that part), changes a stretch of blocks or the drive, and keeps what does not get cheaper. On the
 * Cortex-M4 under qemu's -icount, so a run from the same image with the same argument finds the same. Prints what the loads
 * take, then the image, each byte as a backslash and three octal digits. Argument: how many loads to try. */
#include "bias.h"
#include "system.h"
#include "text.h"

enum { MOST = BIAS_MOST_BLOCKS, BLOCK = BIAS_BLOCK_LENGTH, LADDER = 2, COMMON = LADDER + 2 * (BIAS_MOST_DEPTH + 1) };
enum { SEED = 637, ORDERS = 10, TRIES_OF_A_CLIMB = 300, PATIENCE = 80 };

/* An image being changed: the drive, the landing blocks, two bytes for each, and the blocks. Without landing blocks it is
 * of format 1. */
typedef struct {
    uint32_t type, slot_b, slot_c, listed;
    uint8_t landings[2 * BIAS_MOST_LANDINGS];
    uint8_t blocks[MOST * BLOCK];
} program;

/* The worst image known; none, or one of the most blocks. */
static const uint8_t known[] = {
#include "worst.inc"
};

static program best, now, tried;
static uint32_t best_cost;
static uint8_t image[BIAS_MOST_IMAGE_LENGTH], marks[BIAS_MARKS_LENGTH], state[BIAS_STATE_LENGTH];
static size_t image_len;
static bias_verdict verdict;

/* ---- chance ---- */

static uint32_t chance = SEED;

static uint32_t below(uint32_t bound)
{
    chance ^= chance << 13;
    chance ^= chance >> 17;
    chance ^= chance << 5;
    return (chance >> 4) % bound;
}

/* ---- blocks ---- */

/* Commands to try: some that go on, all forms that may jump, calls, returns, starts and ends of tasks. */
static const uint8_t codes[] = {0x50, 0x55, 0x61, 0x6E, 0x70, 0x71, 0x81, 0x89, 0x52, 0x53, 0x80, 0x85, 0x86,
                                0x8D, 0x1F, 0x51, 0x54, 0x57, 0x90, 0x64, 0x73, 0x56, 0x5B};

static uint32_t target_of(const uint8_t *block)
{
    if (block[0] == 0x81)
        return 256u * (block[6] & 15) + block[7];
    if (block[0] == 0x52 || block[0] == 0x55 || block[0] == 0x54 || block[0] == 0x57 || block[0] == 0x90)
        return block[1] + 256u * block[2];
    return block[4] + 256u * block[5];
}

/* A block with operands that are in order on this drive. */
static void put(program *p, uint32_t at, uint8_t code, uint32_t target)
{
    uint8_t *const block = p->blocks + at * BLOCK;
    for (uint32_t byte = 1; byte < BLOCK; byte++)
        block[byte] = 0;
    block[0] = code;
    switch (code) {
    case 0x52: case 0x54: case 0x55: case 0x57: case 0x90:
        block[1] = (uint8_t)target;
        block[2] = (uint8_t)(target >> 8);
        break;
    case 0x61: case 0x6E: case 0x70: case 0x71: case 0x89:
        block[1] = code == 0x70 ? (p->slot_c == 1 ? 216 : 11) : code == 0x71 ? (p->slot_c == 1 ? 224 : 12) : 0;
        block[4] = (uint8_t)target;
        block[5] = (uint8_t)(target >> 8);
        break;
    case 0x81:
        block[6] = (uint8_t)(target >> 8);
        block[7] = (uint8_t)target;
        break;
    case 0x64: block[2] = p->slot_c == 1 ? 224 : 12; break;
    case 0x73: block[1] = p->slot_c == 1 ? 224 : 12; break;
    case 0x85: block[3] = 1; break;
    case 0x86: block[3] = 1; break;
    case 0x1F: block[2] = 1; break;
    default: break;
    }
}

/* So many landing blocks, from one on in equal steps, as far as there are blocks. */
static void list(program *p, uint32_t number, uint32_t first, uint32_t apart)
{
    p->listed = 0;
    for (uint32_t at = first; at < MOST && p->listed < number; at += apart) {
        p->landings[2 * p->listed] = (uint8_t)at;
        p->landings[2 * p->listed++ + 1] = (uint8_t)(at >> 8);
    }
}

/* ---- programs to begin with ---- */

/* BIAS starts the two other tasks at the ladder, where calls lead to every depth; from each a jump leads to the entry. */
static void put_ladder(program *p, uint32_t entry)
{
    put(p, 0, 0x54, LADDER);
    put(p, 1, 0x90, LADDER);
    for (uint32_t depth = 0; depth <= BIAS_MOST_DEPTH; depth++) {
        const uint32_t at = LADDER + 2 * depth;
        put(p, at, depth < BIAS_MOST_DEPTH ? 0x52 : 0x50, at + 2);
        put(p, at + 1, 0x55, entry);
    }
}

/* The blocks of a stretch, lowest, highest, next lowest and so on, or in any order, as a chain of jumps. */
static void put_chain(program *p, uint32_t low, uint32_t high, int shuffled, uint8_t code)
{
    static uint32_t order[MOST];
    uint32_t length = 0, a = low, b = high;
    while (a < b) {
        order[length++] = a++;
        if (a < b)
            order[length++] = --b;
    }
    for (uint32_t at = length; shuffled && at > 2; at--) {
        const uint32_t other = 1 + below(at - 1), kept = order[at - 1];
        order[at - 1] = order[other];
        order[other] = kept;
    }
    for (uint32_t at = 0; at < length; at++)
        put(p, order[at], code, order[at + 1 < length ? at + 1 : at]);
}

static void begin(program *p, uint32_t order)
{
    p->type = BIAS_TYPE_637;
    p->slot_b = p->slot_c = 0;
    list(p, order < 7 ? 0 : BIAS_MOST_LANDINGS, COMMON, (MOST - COMMON) / BIAS_MOST_LANDINGS);
    put_ladder(p, order == 1 || order == 2 ? MOST - 1 : COMMON);
    for (uint32_t at = COMMON; at < MOST; at++)
        switch (order) {
        case 1: put(p, at, 0x55, at == COMMON ? at : at - 1); break;             /* backwards */
        case 2: put(p, at, 0x89, at > COMMON + 1 ? at - 2 : COMMON); break;      /* both ways */
        case 3: put(p, at, 0x89, COMMON + below(MOST - COMMON)); break;          /* branches everywhere */
        case 4: put(p, at, 0x52, COMMON + below(MOST - COMMON)); break;          /* calls everywhere */
        case 7: put(p, at, at % 16 == 0 ? 0x56 : 0x50, 0); break;                /* jumps by a variable */
        case 8: put(p, at, at % 2 == 0 ? 0x56 : 0x89, (at + 2) % MOST); break;   /* beside branches */
        case 9: put(p, at, at % 2 == 0 ? 0x5B : 0x89, (at + 2) % MOST); break;   /* starts of BIAS by a variable */
        default: put(p, at, 0x50, 0); break;                                     /* straight */
        }
    if (order == 5 || order == 6)
        put_chain(p, COMMON, MOST, order == 6, 0x55);                            /* zigzag; shuffled */
    else if (order != 1)
        put(p, MOST - 1, 0x55, order == 2 ? MOST - 2 : COMMON);
}

/* ---- changes ---- */

static uint32_t some_target(uint32_t at, uint32_t low, uint32_t high, uint32_t way)
{
    switch (way) {
    case 0: return below(MOST);
    case 1: return low + below(high - low);
    case 2: return low + high - 1 - at;
    case 3: return (at + 1) % MOST;
    case 4: return at > 0 ? at - 1 : 0;
    case 5: return (at + 2) % MOST;
    case 6: return low;
    case 7: return high - 1;
    default: return at > 1 ? at - 2 : 0;
    }
}

/* A change of a stretch of blocks, which is short, or as long as the program. */
static void change(program *p)
{
    const uint32_t length = 1 + below(below(2) == 0 ? 8 : MOST), low = below(MOST), most = low + length;
    const uint32_t high = most < MOST ? most : MOST, way = below(9);
    const uint8_t code = codes[below(sizeof codes)];
    switch (below(9)) {
    case 0: case 1:
        /* other commands, with the targets that were there */
        for (uint32_t at = low; at < high; at++)
            put(p, at, code, target_of(p->blocks + at * BLOCK) % MOST);
        break;
    case 2: case 3:
        /* other targets */
        for (uint32_t at = low; at < high; at++)
            put(p, at, p->blocks[at * BLOCK], some_target(at, low, high, way));
        break;
    case 4:
        for (uint32_t at = low; at < high; at++)
            put(p, at, code, some_target(at, low, high, way));
        break;
    case 5: put_chain(p, low, high, (int)below(2), below(4) == 0 ? code : 0x55); break;
    case 6:
        put_ladder(p, below(MOST));
        if (below(2) == 0)
            put(p, LADDER + 1 + 2 * below(BIAS_MOST_DEPTH + 1), 0x55, below(MOST));
        break;
    case 7: list(p, below(BIAS_MOST_LANDINGS + 1), low, 1 + below(MOST / BIAS_MOST_LANDINGS)); break;
    default:
        p->type = below(2) == 0 ? BIAS_TYPE_637 : BIAS_TYPE_637F;
        p->slot_c = below(2);
        p->slot_b = below(2);
        break;
    }
    if (below(2) == 0)
        put(p, MOST - 1, 0x55, below(MOST));
}

/* ---- costs ---- */

static uint32_t cost_of(const program *p)
{
    const bias_verdict written = p->listed == 0
        ? bias_write(BIAS_FORMAT, p->type, p->slot_b, p->slot_c, 0, MOST, p->blocks, sizeof p->blocks, image, sizeof image)
        : bias_write_landings(BIAS_FORMAT_LANDINGS, p->type, p->slot_b, p->slot_c, 0, MOST, p->landings, 2 * p->listed,
                              p->blocks, sizeof p->blocks, image, sizeof image);
    if (written.number != BIAS_SUCCESS)
        return 0;
    image_len = (size_t)written.place;
    const uint32_t begun = instructions();
    verdict = bias_load(image, image_len, marks, sizeof marks, state, sizeof state);
    return instructions() - begun;
}

static void copy(program *to, const program *from)
{
    to->type = from->type;
    to->slot_b = from->slot_b;
    to->slot_c = from->slot_c;
    to->listed = from->listed;
    for (uint32_t at = 0; at < sizeof to->landings; at++)
        to->landings[at] = from->landings[at];
    for (uint32_t at = 0; at < sizeof to->blocks; at++)
        to->blocks[at] = from->blocks[at];
}

static void keep_best(const program *p, uint32_t cost, uint32_t load)
{
    if (cost <= best_cost)
        return;
    best_cost = cost;
    copy(&best, p);
    put_text("load ");
    put_number(load);
    put_text(": ");
    put_number(cost);
    put_text(" instructions, answer ");
    put_number(verdict.number);
    put_text("\n");
}

static void put_image(void)
{
    cost_of(&best);
    put_text("image ");
    for (size_t at = 0; at < image_len; at++) {
        const uint8_t byte = image[at];
        const char digits[4] = {'\\', (char)('0' + byte / 64), (char)('0' + byte / 8 % 8), (char)('0' + byte % 8)};
        put_bytes(digits, sizeof digits);
    }
    put_text("\n");
}

/* The worst image known; its start, 0, takes one byte, and its count two. A landing list, if there is one, stands behind
 * them, each block in one byte or two. */
static int begin_known(program *p)
{
    enum { AT_LIST = 7 };
    if (sizeof known < AT_LIST + sizeof p->blocks)
        return 0;
    const size_t header = sizeof known - sizeof p->blocks;
    p->type = known[1];
    p->slot_b = known[2];
    p->slot_c = known[3];
    p->listed = 0;
    for (size_t at = AT_LIST + 1; at < header; at++) {
        const uint32_t low = known[at], block = low < 128 ? low : low - 128 + 128u * known[++at];
        p->landings[2 * p->listed] = (uint8_t)block;
        p->landings[2 * p->listed++ + 1] = (uint8_t)(block >> 8);
    }
    for (uint32_t at = 0; at < sizeof p->blocks; at++)
        p->blocks[at] = known[header + at];
    return 1;
}

/* A climb from `now`; gives how many loads have been tried. */
static uint32_t climb(uint32_t loads, uint32_t most)
{
    uint32_t cost = cost_of(&now), failed = 0;
    for (uint32_t tries = 0; tries < TRIES_OF_A_CLIMB && loads < most && failed < PATIENCE; tries++) {
        uint32_t other;
        copy(&tried, &now);
        change(&tried);
        other = cost_of(&tried);
        loads++;
        failed = other > cost ? 0 : failed + 1;
        if (other >= cost) {
            cost = other;
            copy(&now, &tried);
            keep_best(&now, cost, loads);
        }
    }
    return loads;
}

int run(const char *word)
{
    uint32_t loads = 0, most = 0;
    for (; *word >= '0' && *word <= '9'; word++)
        most = 10 * most + (uint32_t)(*word - '0');
    if (begin_known(&now))
        keep_best(&now, cost_of(&now), 0);
    for (uint32_t order = 0; order < ORDERS; order++) {
        begin(&now, order);
        keep_best(&now, cost_of(&now), ++loads);
    }
    /* from the worst, and every second time from another order */
    for (uint32_t climbs = 0; loads < most; climbs++) {
        if (climbs % 2 == 0)
            copy(&now, &best);
        else
            begin(&now, climbs / 2 % ORDERS);
        loads = climb(loads, most);
    }
    put_image();
    return best_cost > 0 ? 0 : 1;
}
