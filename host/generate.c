#include "generate.h"

#include "events.h"
#include "image.h"

#define BIT_31 0x80000000u
#define COUNT(table) ((uint32_t)(sizeof(table) / sizeof((table)[0])))
#define ONE_OF(table) ((table)[draw(COUNT(table))])

/*
 * C leaves open which operand or argument is evaluated first. So that a seed means the same on every
 * machine, two unlike draws never stand in one expression.
 */

/* ---- numbers */

static uint64_t state = 1;
static enum weather {
    FAIR,   /* sendings end in any way */
    ERRORS, /* hardly anything that is sent gets through: the way to bus off */
    ALONE   /* hardly anything that is sent is acknowledged */
} weather;

/* xorshift64*: Vigna, "An experimental exploration of Marsaglia's xorshift generators". */
static uint32_t any_word(void)
{
    state ^= state >> 12;
    state ^= state << 25;
    state ^= state >> 27;
    return (uint32_t)(state * UINT64_C(2685821657736338717) >> 32);
}

void seed_generator(uint64_t seed)
{
    state = seed * UINT64_C(0x9E3779B97F4A7C15) | 1;
    weather = FAIR;
    for (int i = 0; i < 8; i++)
        any_word();
}

uint32_t draw(uint32_t below)
{
    return (uint32_t)((uint64_t)any_word() * below >> 32);
}

static int one_in(uint32_t n)
{
    return draw(n) == 0;
}

void draw_bytes(uint8_t *bytes, size_t len)
{
    for (size_t i = 0; i < len; i++)
        bytes[i] = (uint8_t)draw(256);
}

/* Flags: none, one, few, half, most or all of them. */
static uint32_t any_flags(void)
{
    switch (draw(7)) {
    case 0: return 0;
    case 1: return 1u << draw(32);
    case 2: return any_word() & any_word() & any_word();
    case 3: return any_word() | any_word();
    case 4: return 0xFFFFFFFF;
    default: return any_word();
    }
}

/* One to three flags. */
static uint32_t few_flags(void)
{
    return 1u << draw(32) | 1u << draw(32) | 1u << draw(32);
}

/* A value at or past the end of what is allowed somewhere. */
static uint32_t edge_value(void)
{
    static const uint32_t edges[] = {0, 1, 2, 3, 4, 5, 8, 9, 15, 16, 31, 32, 127, 128, 255, 256, 257, 1023,
                                     1024, 65535, 65536, 0x7FFFFFFF, BIT_31, 0xFFFFFFFF};

    return one_in(3) ? 1u << draw(32) : ONE_OF(edges);
}

/* ---- what mailboxes and frames hold */

/* From a handful, from a larger pool, or any. */
static uint32_t any_identifier(void)
{
    const uint32_t few[] = {STANDARD(0x123), EXTENDED(0x123, 0), EXTENDED(0x7FF, 0x3FFFF)};
    static const uint32_t bases[] = {0x123, 0x122, 0x7FF, 0x000, 0x523};
    static const uint32_t lows[] = {0, 1, 0x20000, 0x3FFFF};
    uint32_t base = one_in(12) ? draw(0x800) : ONE_OF(bases);

    if (one_in(2))
        return ONE_OF(few);
    if (one_in(2))
        return STANDARD(base);
    return EXTENDED(base, one_in(12) ? draw(0x40000) : ONE_OF(lows));
}

static uint32_t any_profile(void)
{
    return one_in(2) ? ECAN : CAN_B;
}

/* Most of them free much, so that several mailboxes match one frame. */
static uint32_t any_mask(void)
{
    static const uint32_t masks[] = {0, BIT_31, 0x1FFFFFFF, 0x9FFFFFFF, 0x0003FFFF, 0x8003FFFF,
                                     0x00040000, 0x9FFC0000};

    return one_in(6) ? any_word() & 0x9FFFFFFF : ONE_OF(masks);
}

static uint32_t any_word_0(void)
{
    uint32_t identifier = any_identifier(), masked = one_in(3) ? MASKED : 0, rfh = one_in(2) ? RFH : 0;

    return identifier | masked | rfh;
}

#define DLCS (FROSTSORREL_HIGHEST_DLC + 1)

/* Half of them stand where the rule for the data bytes changes, or at the end. */
static uint32_t any_dlc(void)
{
    static const uint32_t edges[] = {7, 8, 9, FROSTSORREL_HIGHEST_DLC};

    return one_in(2) ? ONE_OF(edges) : draw(DLCS);
}

static uint32_t any_word_1(void)
{
    uint32_t stamp = draw(65536), rtr = draw(2), dlc = any_dlc();

    return CONTROL(stamp, rtr, dlc);
}

static uint32_t any_mailbox_word(int k)
{
    switch (k) {
    case 0: return any_word_0();
    case 1: return any_word_1();
    default: return any_word();
    }
}

/* ---- events */

static struct event any_remote_frame(uint32_t dlc)
{
    return remote_frame(any_identifier(), (int)dlc);
}

static struct event any_data_frame(uint32_t dlc)
{
    uint8_t data[FROSTSORREL_MOST_DATA_BYTES];
    struct event e;

    draw_bytes(data, sizeof data);
    frostsorrel_data_frame(e.bytes, any_identifier(), (uint8_t)dlc, data);
    return e;
}

static struct event any_frame_of(uint32_t dlc)
{
    return one_in(3) ? any_remote_frame(dlc) : any_data_frame(dlc);
}

static struct event any_frame(void)
{
    return any_frame_of(any_dlc());
}

/* With a data byte that is not carried: the next one, or any one of a remote frame. */
static struct event frame_with_a_byte_more(void)
{
    int remote = one_in(2);
    uint32_t dlc = remote ? any_dlc() : draw(FROSTSORREL_MOST_DATA_BYTES);
    uint32_t at = remote ? draw(FROSTSORREL_MOST_DATA_BYTES) : dlc, byte = 1 + draw(255);

    return with_byte(remote ? any_remote_frame(dlc) : any_data_frame(dlc), 8 + (int)at, (int)byte);
}

/* What a frame is refused for that has to do with its DLC. */
static struct event bad_frame(void)
{
    if (one_in(2))
        return frame_with_a_byte_more();
    return any_frame_of(one_in(2) ? DLCS : DLCS + draw(256 - DLCS));
}

/* Most of them let the model leave configuration. */
static uint32_t any_timing(void)
{
    static const uint32_t edges[] = {0x000, 0x005, 0x020, 0x018, 0x085, 0x121, 0x221, 0x321, 0x3FF};

    if (one_in(8))
        return draw(1024);
    return one_in(4) ? ONE_OF(edges) : 0x25;
}

static int is_ecan(const uint8_t *image)
{
    return word_of(image, PROFILE) == ECAN;
}

/* The mailboxes that can send: bits that several words have there alone. */
static uint32_t senders(const uint8_t *image)
{
    return is_ecan(image) ? ~0u : ~BIT_31;
}

/* Often up where frames are held, and often everywhere. */
static uint32_t any_protection(const uint8_t *image)
{
    return one_in(2) ? any_flags() | word_of(image, RMP) : any_flags() | any_flags();
}

/* A mask or the protection: what only an eCAN takes. */
static struct event any_own_write(const uint8_t *image)
{
    int n = (int)draw(32);

    if (one_in(2))
        return write_register(PROTECTION, any_protection(image));
    return write_register(MASK(n), any_mask());
}

/* Turns mailbox 31 round, holds it back, asks for it or cancels that: what an eCAN alone does. */
static struct event any_write_at_31(const uint8_t *image)
{
    static const int words[] = {MD, CDR, TRS, TRR};
    int word = ONE_OF(words);

    if (word_of(image, TRS) & BIT_31 && one_in(2))
        word = TRR;
    return write_register(word, word == MD || word == CDR ? word_of(image, word) ^ BIT_31 : BIT_31);
}

static struct event any_register_write(const uint8_t *image)
{
    int word = MC + (int)draw(20), refused = one_in(4);

    if (one_in(is_ecan(image) ? 5 : 40))
        return any_own_write(image);
    if (is_ecan(image) && one_in(5))
        return any_write_at_31(image);
    switch (word) {
    case RML: case RFP: return write_register(refused ? word : TRS, any_flags());
    case MC: return write_register(MC, any_flags() | any_flags());
    case LAM: case GAM: return write_register(word, any_mask());
    case CDR: return write_register(CDR, one_in(2) ? 0 : any_flags() & senders(image));
    case GIF: case GIM: return write_register(word, draw(256));
    case BCR1: return write_register(BCR1, draw(1024));
    case BCR2: return write_register(BCR2, any_timing());
    case TSC: return write_register(TSC, 0);
    default: return write_register(word, any_flags());
    }
}

/* One in four goes to the slot's mailbox. */
static struct event any_mailbox_write(const uint8_t *image, int k)
{
    uint32_t n = one_in(4) ? word_of(image, SLOT) % 32 : draw(32);

    return write_mailbox((int)n, k, any_mailbox_word(k));
}

/* Word 1 with one of bits 15 to 5. */
static struct event bad_mailbox_write(const uint8_t *image)
{
    struct event e = any_mailbox_write(image, 1);

    put(e.bytes, 1, word_of(e.bytes, 1) | 1u << (5 + draw(11)));
    return e;
}

/* Setting up, while no mailbox is enabled: what the rest of a run will meet. */
static struct event any_setup(const uint8_t *image)
{
    if (is_ecan(image) && one_in(3))
        return any_own_write(image);
    switch (draw(16)) {
    case 0: return write_register(MC, any_flags() | any_flags());
    case 1: case 2: return write_register(MD, any_flags());
    case 3: return write_register(GAM, any_mask());
    case 4: return write_register(LAM, any_mask());
    default: return any_mailbox_write(image, one_in(3) ? (int)draw(4) : 0);
    }
}

/* An enabled one, most of the time; the one that the search comes to last is oftener tried. */
static int likely_mailbox(const uint8_t *image)
{
    uint32_t enabled = word_of(image, MC), last = is_ecan(image) ? 0 : 31, n = one_in(4) ? last : draw(32);

    for (int tries = 0; tries < 4 && !(enabled >> n & 1); tries++)
        n = draw(32);
    return (int)n;
}

static uint32_t mask_of(const uint8_t *image, int n)
{
    return word_of(image, is_ecan(image) ? MASK(n) : n == 31 ? LAM : GAM);
}

/* Identifier and IDE as one of the mailboxes has them, with some bits turned round. */
static uint32_t near_identifier(const uint8_t *image)
{
    int n = likely_mailbox(image);
    uint32_t own = word_of(image, MAILBOX(n, 0)), freed = mask_of(image, n);
    uint32_t bits = 0;

    switch (draw(6)) {
    case 0: break;
    case 1: bits = 1u << draw(29); break;
    case 2: bits = any_flags(); break;
    case 3: bits = FROSTSORREL_IDE; break;
    case 4: bits = freed; break;
    default: bits = freed ^ 1u << draw(29);
    }
    own = (own ^ bits) & (FROSTSORREL_IDE | FROSTSORREL_IDENTIFIER_BITS);
    return own & FROSTSORREL_IDE ? own : STANDARD(own >> 18);
}

static struct event near_frame(const uint8_t *image)
{
    struct event e = any_frame();

    put(e.bytes, 1, near_identifier(image) | (word_of(e.bytes, 1) & FROSTSORREL_FRAME_RTR));
    return e;
}

/* One in two of an eCAN is one that a mailbox matches or just misses: with any other, few are passed over. */
static struct event some_frame(const uint8_t *image)
{
    return is_ecan(image) && one_in(2) ? near_frame(image) : any_frame();
}

static struct event any_operation(const uint8_t *image)
{
    uint32_t kind = draw(200);

    if (kind < 60) return some_frame(image);
    if (kind < 110) return any_register_write(image);
    if (kind < 125) return write_register(TRS, any_flags());
    if (kind < 160) return start();
    if (kind < 163) return outcome((int)draw(4));
    if (kind < 173) return any_mailbox_write(image, (int)draw(4));
    if (kind < 180) return receive_error(one_in(2) ? 1 : 8);
    if (kind < 185) return recessive();
    if (kind < 190) return tick();
    if (kind < 196) return mode(draw(4));
    if (kind < 199) return options(draw(4));
    return one_in(4) ? reset() : tick();
}

static struct event any_outcome(void)
{
    if (weather != FAIR && !one_in(8))
        return outcome(weather == ERRORS ? ERROR : UNACKNOWLEDGED);
    return outcome(one_in(3) ? SENT : (int)draw(4));
}

static enum weather any_weather(void)
{
    static const enum weather likely[] = {FAIR, FAIR, FAIR, ERRORS, ALONE};

    return ONE_OF(likely);
}

/* Each state gets what moves it on, so that a run does not rest in one of them. */
static struct event next_event(const uint8_t *image)
{
    uint32_t present = word_of(image, MODE);

    if (one_in(300))
        weather = any_weather();
    if (present == CONFIGURATION && word_of(image, MC) == 0 && !one_in(40))
        return any_setup(image);
    if (present == CONFIGURATION && one_in(3))
        return one_in(2) ? write_register(BCR2, any_timing()) : mode(NORMAL_MODE);
    if (present == SUSPEND && one_in(4))
        return mode(NORMAL_MODE);
    if (present == SLEEP && one_in(3))
        return one_in(2) ? mode(NORMAL_MODE) : any_frame();
    if (word_of(image, SLOT) != EMPTY_SLOT && (weather != FAIR || one_in(3)))
        return any_outcome();
    if (word_of(image, TEC) == BUS_OFF_TEC && !one_in(8))
        return recessive();
    if (weather != FAIR && one_in(2))
        return start();
    return any_operation(image);
}

/* A register, or a number beside those that are one. */
static int edge_register(void)
{
    static const int edges[] = {20, 22, 31, 32, 33, 63, 64, 95, 96, 97};

    return one_in(2) ? ONE_OF(edges) : (int)draw(FROSTSORREL_PROTECTION + 2);
}

static struct event event_of_any_operation(const uint8_t *image)
{
    int number = edge_register();

    if (word_of(image, SLOT) != EMPTY_SLOT && one_in(3))
        return outcome((int)draw(5));
    switch (draw(16)) {
    case 0: return plain_event(FROSTSORREL_WRITE_REGISTER, number, 0, edge_value());
    case 1: return any_register_write(image);
    case 2: return one_in(8) ? bad_mailbox_write(image) : any_mailbox_write(image, (int)draw(4));
    case 3: case 4: case 5: return one_in(16) ? bad_frame() : some_frame(image);
    case 6: case 7: return start();
    case 8: case 9: return outcome((int)draw(5));
    case 10: return receive_error(one_in(2) ? 1 : 8);
    case 11: return recessive();
    case 12: return tick();
    case 13: return mode(draw(5));
    case 14: return options(draw(5));
    default: return reset();
    }
}

/* Answers the event's length. */
static size_t damage(uint8_t *event)
{
    uint32_t at = draw(EVENT_BYTES), bit = draw(32);

    switch (draw(9)) {
    case 0: event[at] ^= (uint8_t)(1u << bit % 8); break;
    case 1: event[at] = (uint8_t)draw(256); break;
    case 2: event[1 + at % 3] = (uint8_t)draw(36); break;
    case 3: event[0] = (uint8_t)draw(14); break;
    case 4: case 5: put(event, 1, edge_value()); break;
    case 6: put(event, 1, word_of(event, 1) ^ 1u << bit); break;
    case 7: event[1] = (uint8_t)(FROSTSORREL_MASK_0 - 2 + draw(37)); break; /* on both sides of 64 and 96 */
    default:
        draw_bytes(event + EVENT_BYTES, LONGEST_EVENT - EVENT_BYTES);
        return draw(LONGEST_EVENT + 1);
    }
    return EVENT_BYTES;
}

static size_t damaged_at_times(uint8_t *event, struct event e)
{
    memcpy(event, e.bytes, EVENT_BYTES);
    return one_in(10) ? damage(event) : EVENT_BYTES;
}

size_t likely_event(uint8_t *event, const uint8_t *image)
{
    return damaged_at_times(event, next_event(image));
}

size_t varied_event(uint8_t *event, const uint8_t *image)
{
    return damaged_at_times(event, event_of_any_operation(image));
}

size_t frame_near_a_mailbox(uint8_t *event, const uint8_t *image)
{
    return damaged_at_times(event, one_in(16) ? bad_frame() : near_frame(image));
}

/* ---- images */

static void put_flags(uint8_t *image)
{
    uint32_t sending = senders(image), md = any_flags() | ~sending, rmp = any_flags();

    put(image, MC, any_flags());
    put(image, MD, md);
    put(image, TRS, (one_in(2) ? few_flags() : any_flags()) & ~md);
    put(image, TA, any_flags() & sending);
    put(image, AA, any_flags() & sending);
    put(image, RMP, rmp);
    put(image, RML, rmp & any_flags());
    put(image, RFP, rmp & any_flags());
    put(image, CDR, any_flags() & any_flags() & sending);
    put(image, MBTIF, any_flags() & sending);
    put(image, MBRIF, any_flags());
    put(image, MBIM, any_flags());
}

static void put_numbers(uint8_t *image)
{
    static const uint32_t counts[] = {0, 0, 1, 88, 89, 95, 96, 97, 119, 120, 126, 127, 128, 200, 247,
                                      248, 254, 255};

    put(image, LAM, any_mask());
    put(image, GAM, any_mask());
    put(image, GIF, draw(256));
    put(image, GIM, draw(256));
    put(image, BCR1, draw(1024));
    put(image, BCR2, any_timing());
    put(image, TSC, one_in(4) ? 65535 : draw(65536));
    put(image, TEC, ONE_OF(counts));
    put(image, REC, ONE_OF(counts));
    put(image, OPTIONS, draw(4));
    put(image, TSO, draw(2));
}

/* In a CAN-B too, where nobody asks for them. */
static void put_masks(uint8_t *image)
{
    for (int n = 0; n < FROSTSORREL_MAILBOXES; n++)
        put(image, MASK(n), any_mask());
    put(image, PROTECTION, any_protection(image));
}

/* Much is enabled, held and protected, and many mailboxes share an identifier: frames go past several. */
static void put_overload(uint8_t *image)
{
    uint32_t shared = any_identifier();

    put(image, MC, word_of(image, MC) | any_word());
    put(image, RMP, word_of(image, RMP) | any_word());
    put(image, PROTECTION, word_of(image, PROTECTION) | any_word());
    for (int n = 0; n < FROSTSORREL_MAILBOXES; n++)
        if (one_in(2))
            put(image, MAILBOX(n, 0), shared | (word_of(image, MAILBOX(n, 0)) & (MASKED | RFH)));
}

static void put_in_slot(uint8_t *image)
{
    uint32_t n = is_ecan(image) && one_in(4) ? 31 : draw(31), bit = 1u << n;

    put(image, SLOT, n);
    put(image, MC, word_of(image, MC) | bit);
    put(image, MD, word_of(image, MD) & ~bit);
    put(image, TRS, word_of(image, TRS) | bit);
    put(image, TRR, one_in(2) ? bit : 0);
}

/* On both sides of the line, by either counter. */
static void put_near_passive(uint8_t *image)
{
    static const uint32_t recs[] = {0, 126, 127, 128, 129};

    put(image, TEC, 119 + draw(18));
    put(image, REC, ONE_OF(recs));
}

static void put_asleep(uint8_t *image)
{
    static const int zero[] = {TEC, REC, TRS};

    put(image, MODE, SLEEP);
    for (uint32_t i = 0; i < COUNT(zero); i++)
        put(image, zero[i], 0);
}

static void put_bus_off(uint8_t *image)
{
    put(image, TEC, BUS_OFF_TEC);
    put(image, RECOVERY, one_in(2) ? 127 : draw(128));
}

void good_image(uint8_t *image)
{
    good_image_of(image, any_profile());
}

void good_image_of(uint8_t *image, uint32_t profile)
{
    put_fresh_of(image, profile);
    for (int word = 0; word < MC; word++)
        put(image, word, any_mailbox_word(word % 4));
    put_flags(image);
    put_numbers(image);
    put_masks(image);
    if (is_ecan(image) && one_in(2))
        put_overload(image);
    put(image, MODE, NORMAL_MODE);
    switch (draw(10)) {
    case 0: put(image, MODE, CONFIGURATION); return;
    case 1: put(image, MODE, SUSPEND); return;
    case 2: put_asleep(image); return;
    case 3: put_bus_off(image); break;
    case 4: case 5: put_in_slot(image); break;
    case 6: case 7:
        put_in_slot(image);
        put_near_passive(image);
        break;
    default: return;
    }
    put(image, WAITING, 1 + draw(4)); /* with bus off or a filled slot, a mode may wait */
}

/* Mailbox 31 alone has a request. */
static void put_request_at_31(uint8_t *image)
{
    put(image, MC, word_of(image, MC) | BIT_31);
    put(image, MD, word_of(image, MD) & ~BIT_31);
    put(image, TRS, BIT_31);
    put(image, CDR, word_of(image, CDR) & ~BIT_31);
}

void overloaded_image(uint8_t *image)
{
    do
        good_image_of(image, ECAN);
    while (word_of(image, MODE) != NORMAL_MODE || word_of(image, SLOT) != EMPTY_SLOT ||
           word_of(image, TEC) == BUS_OFF_TEC);
    put_overload(image);
    if (one_in(4))
        put_request_at_31(image);
}

static void flip(uint8_t *image, int word, uint32_t bits)
{
    put(image, word, word_of(image, word) ^ bits);
}

void spoil(uint8_t *image)
{
    static const int below_31[] = {MD, TRS, TRR, TA, AA, CDR, MBTIF};
    static const int paired[] = {TRS, TRR, RML, RFP, RMP, MC, MD};
    uint32_t bit = 1u << draw(32);
    int n = (int)draw(32), k = (int)draw(2), word;

    switch (draw(12)) {
    case 0: flip(image, ONE_OF(below_31), BIT_31); break;
    case 1: flip(image, ONE_OF(paired), bit); break;
    case 2: flip(image, k ? LAM : GAM, n % 2 ? 1u << 29 : 1u << 30); break;
    case 3:
        word = GIF + (int)draw(MASKS - GIF);
        put(image, word, edge_value());
        break;
    case 4: put(image, MODE + n % 4, draw(6)); break; /* mode, waiting mode, slot, recovery count */
    case 5: put(image, TEC, BUS_OFF_TEC - draw(2)); break;
    case 6: flip(image, MAILBOX(n, k), bit); break;
    case 7: flip(image, MASK(n), k ? 1u << 29 : 1u << 30); break;
    case 8: put(image, PROFILE, k ? PROFILES : edge_value()); break;
    case 9: flip(image, PROFILE, ECAN); break; /* what it has is the other one's, and may be good there */
    case 10: put(image, SLOT, EMPTY_SLOT - 1 + draw(3)); break;
    default: flip(image, (int)draw(WORDS), bit);
    }
}
