/*
 * Document 01, and of document 02 the comparison of two images, the outcome for a missing acknowledgement,
 * DLC 9 to 15, the explainer and the eCAN, in plain C. "D12" and the like are entries of docs/DECISIONS.md.
 * Traces in parts have a file of their own, so that the code of a step stays where it is.
 */
#include "reference.h"

#include <stdbool.h>
#include <stdio.h>
#include <string.h>

#if __BYTE_ORDER__ != __ORDER_LITTLE_ENDIAN__
#error "words are taken from the image as they stand: this wants a little-endian machine"
#endif

/*
 * ---- the image: words counted from its first byte; behind 32 mailboxes of 4 the register words, then what
 * the eCAN has of its own, then the profile
 */

#define IMAGE_BYTES 776
#define REGISTER_BYTES 512 /* where the register words begin */

enum {
    MC = 128, MD, TRS, TRR, TA, AA, RMP, RML, LAM, GAM, RFP, CDR, MBTIF, MBRIF, MBIM, GIF, GIM,
    BCR1, BCR2, TSC, TEC, REC, MODE, WAITING, SLOT, RECOVERY, OPTIONS, TSO, SPARE,
    MASKS = 160, PROTECTION = 192, PROFILE
};
enum { CAN_B, ECAN };
enum { NORMAL, CONFIGURATION, SLEEP, SUSPEND, NO_MODE };
enum { EMPTY = 32, BUS_OFF = 256, NO_MAILBOX = 32 };

/* Word 0 of a mailbox; a frame's value has IDE and the identifier in the same places. */
#define IDE 0x80000000u
#define MASKED 0x40000000u /* GAME, or LAME in mailbox 31; in an eCAN AME */
#define RFH 0x20000000u
#define IDENTIFIER 0x1FFFFFFFu
#define BASE 0x1FFC0000u /* the 11 bits of a standard identifier */
#define LOW 0x0003FFFFu  /* the 18 bits that only an extended one has */

/* Word 1 of a mailbox: any DLC in bits 3 to 0. */
#define RTR 0x10u
#define CONTROL_SPARE 0xFFE0u

#define MASK_SPARE 0x60000000u /* in LAM, GAM and the masks of an eCAN */
#define MAILBOX_31 0x80000000u

enum { MTOS = 1, WUBA = 2 };
enum { OVERFLOWED = 0x08, ABORTED = 0x10, LOST = 0x20, WOKEN = 0x40, REMOTE_CAME = 0x80 }; /* GIF */

static inline uint32_t get(const uint8_t *image, unsigned word)
{
    uint32_t value;

    memcpy(&value, image + 4 * word, sizeof value);
    return value;
}

static inline void set(uint8_t *image, unsigned word, uint32_t value)
{
    memcpy(image + 4 * word, &value, sizeof value);
}

static inline void set_bits(uint8_t *image, unsigned word, uint32_t bits)
{
    set(image, word, get(image, word) | bits);
}

static inline void clear_bits(uint8_t *image, unsigned word, uint32_t bits)
{
    set(image, word, get(image, word) & ~bits);
}

static inline uint64_t get_double(const uint8_t *bytes)
{
    uint64_t value;

    memcpy(&value, bytes, sizeof value);
    return value;
}

/* ---- answers: refusal + 256 * mailbox + 65536 * count */

enum { BAD_IMAGE = 1, UNKNOWN, ASLEEP, NOT_ALLOWED, BUSY, LOCKED, NOTHING_SENT, NO_ROOM = 9 };

#define ACCEPTED ((uint64_t)NO_MAILBOX << 8)

static inline uint64_t refused(unsigned refusal)
{
    return ACCEPTED + refusal;
}

static inline uint64_t found(uint32_t mailbox, uint32_t count)
{
    return (uint64_t)count << 16 | mailbox << 8;
}

/* ---- the state, as several rules ask for it */

static inline bool ecan(const uint8_t *image)
{
    return get(image, PROFILE) == ECAN;
}

/* The bit of the mailbox in the slot; 32 there means nobody, and has no bit. */
static inline uint32_t slot_bit(const uint8_t *image)
{
    return (uint32_t)(UINT64_C(1) << (get(image, SLOT) & 63));
}

static inline bool slot_filled(const uint8_t *image)
{
    return get(image, SLOT) != EMPTY;
}

static inline bool asleep(const uint8_t *image)
{
    return get(image, MODE) == SLEEP;
}

/* Frames and receive errors are heard, and sending may start. */
static inline bool on_bus(const uint8_t *image)
{
    return get(image, MODE) == NORMAL && get(image, TEC) != BUS_OFF;
}

enum { WARNING = 0x01, PASSIVE = 0x02, OFF_BUS = 0x04 }; /* in GSR, and in GIF when they become true */

static inline uint32_t conditions(const uint8_t *image)
{
    uint32_t tec = get(image, TEC), rec = get(image, REC), worse = tec > rec ? tec : rec;

    return (uint32_t)(tec == BUS_OFF) * OFF_BUS | (worse > 127) * PASSIVE | (worse > 96) * WARNING;
}

/* ---- good image */

/* Bits of a word 0 that its layout forbids: a standard identifier has no low 18 bits. */
static inline uint32_t stray_identifier(uint32_t word)
{
    return word & LOW & ((word >> 31) - 1);
}

/* The same for a word 1: bits 15 to 5. */
static inline uint32_t stray_control(uint32_t word)
{
    return word & CONTROL_SPARE;
}

/* The two tests above over all mailboxes at once: what they ask for is gathered, and looked at last. */
static bool good_mailboxes(const uint8_t *image)
{
    uint32_t standard = 0, control = 0;

    for (unsigned n = 0; n < 32; n++) {
        uint32_t first = get(image, 4 * n);

        standard |= first & ((first >> 31) - 1);
        control |= get(image, 4 * n + 1);
    }
    return ((standard & LOW) | stray_control(control)) == 0;
}

/* All bits of eight masks, two of them as one number. */
static inline uint64_t eight_masks(const uint8_t *at)
{
    return get_double(at) | get_double(at + 8) | get_double(at + 16) | get_double(at + 24);
}

/* Written out: of a loop the compiler makes vectors, at which the emulator of the bench is slow. */
static inline bool good_masks(const uint8_t *image)
{
    const uint8_t *at = image + 4 * MASKS;
    uint64_t all = eight_masks(at) | eight_masks(at + 32) | eight_masks(at + 64) | eight_masks(at + 96);

    return (all & ((uint64_t)MASK_SPARE << 32 | MASK_SPARE)) == 0;
}

/* Bit 31 of what has none in a CAN-B, where mailbox 31 only receives. */
static inline uint32_t stray_31(const uint8_t *image)
{
    uint32_t never_31 = get(image, TRS) | get(image, TRR) | get(image, TA) | get(image, AA) |
                        get(image, CDR) | get(image, MBTIF) | ~get(image, MD);

    return get(image, PROFILE) == CAN_B ? never_31 & MAILBOX_31 : 0;
}

/* Bits that no good image has, whatever the other words say. */
static inline uint32_t stray_bits(const uint8_t *image)
{
    return ((get(image, LAM) | get(image, GAM)) & MASK_SPARE) |
           ((get(image, GIF) | get(image, GIM) | get(image, REC)) & ~0xFFu) |
           ((get(image, BCR1) | get(image, BCR2)) & ~0x3FFu) | (get(image, TSC) & ~0xFFFFu) |
           ((get(image, MODE) | get(image, OPTIONS)) & ~3u) | (get(image, RECOVERY) & ~127u) |
           ((get(image, TSO) | get(image, PROFILE)) & ~1u) | get(image, SPARE) | get(image, SPARE + 1) |
           get(image, SPARE + 2) | get(image, SPARE + 3);
}

/* Bits that stand where another word does not let them. */
static inline uint32_t misplaced_bits(const uint8_t *image)
{
    uint32_t trs = get(image, TRS), slot = slot_bit(image);

    return (trs & get(image, MD)) | (get(image, TRR) & ~(trs & slot)) |
           ((get(image, RML) | get(image, RFP)) & ~get(image, RMP)) | (slot & ~(trs & get(image, MC)));
}

/* The clauses about mode, slot and counters. That slot 31 has its TRS bit, misplaced_bits has asked. */
static inline bool good_state(const uint8_t *image)
{
    uint32_t mode = get(image, MODE), tec = get(image, TEC), waiting = get(image, WAITING);
    uint32_t quiet = tec | get(image, REC) | get(image, TRS) | get(image, TRR);
    bool filled = slot_filled(image), off = tec == BUS_OFF;

    return (get(image, SLOT) <= EMPTY) & (tec <= BUS_OFF) & !(filled & off) & ((mode == NORMAL) | !(filled | off)) &
           ((get(image, RECOVERY) == 0) | off) & (waiting - 1 < NO_MODE) &
           ((waiting == NO_MODE) | filled | off) & ((mode != SLEEP) | (quiet == 0));
}

static bool good(const uint8_t *image, size_t image_len)
{
    return image_len == IMAGE_BYTES && (stray_bits(image) | stray_31(image) | misplaced_bits(image)) == 0 &&
           good_state(image) && good_mailboxes(image) && good_masks(image);
}

/* ---- the event: 8 bytes of operation, target, word, 0 and value, taken as one number; 8 of data */

struct event {
    uint64_t head, data;
};

#define TARGET UINT64_C(0x000000000000FF00)
#define WORD UINT64_C(0x0000000000FF0000)
#define BYTE_3 UINT64_C(0x00000000FF000000)
#define VALUE UINT64_C(0xFFFFFFFF00000000)

static inline struct event event_at(const uint8_t *bytes)
{
    struct event e = {get_double(bytes), get_double(bytes + 8)};

    return e;
}

static inline unsigned operation(struct event e)
{
    return e.head & 0xFF;
}

static inline uint32_t target(struct event e)
{
    return e.head >> 8 & 0xFF;
}

static inline uint32_t word(struct event e)
{
    return e.head >> 16 & 0xFF;
}

static inline uint32_t value(struct event e)
{
    return (uint32_t)(e.head >> 32);
}

/* Is anything in these unused fields, in byte 3 (D8), or in the data bytes? */
static inline bool dirty(struct event e, uint64_t fields)
{
    return ((e.head & (fields | BYTE_3)) | e.data) != 0;
}

/* ---- modes */

static void enter(uint8_t *image, uint32_t mode)
{
    set(image, MODE, mode);
    if (mode == SLEEP) {
        set(image, TEC, 0);
        set(image, REC, 0);
        set(image, TRS, 0);
        set(image, TRR, 0);
    }
}

static void wake(uint8_t *image)
{
    set(image, MODE, NORMAL);
    set_bits(image, GIF, WOKEN);
}

/* The end of a step that emptied the slot or ended bus off. */
static void take_waiting_mode(uint8_t *image)
{
    uint32_t waiting = get(image, WAITING);

    if (waiting == NO_MODE || get(image, TEC) == BUS_OFF)
        return;
    set(image, WAITING, NO_MODE);
    enter(image, waiting);
}

static bool timing_forbids_leaving(uint32_t bcr2)
{
    uint32_t sjw = bcr2 >> 8 & 3, tseg2 = bcr2 >> 4 & 7, tseg1 = bcr2 & 15;

    return tseg1 == 0 || tseg2 == 0 || sjw > tseg2;
}

/* Only normal mode can have a filled slot or bus off, so only it makes a request wait. */
static void leave_normal(uint8_t *image, uint32_t mode)
{
    if (slot_filled(image) || get(image, TEC) == BUS_OFF)
        set(image, WAITING, mode);
    else
        enter(image, mode);
}

static uint64_t request_mode(uint8_t *image, struct event e)
{
    uint32_t wanted = value(e), mode = get(image, MODE);

    if (dirty(e, TARGET | WORD) || wanted > SUSPEND)
        return refused(NOT_ALLOWED);
    if (wanted == mode) {
        set(image, WAITING, NO_MODE);
    } else if (mode == NORMAL) {
        leave_normal(image, wanted);
    } else if (wanted != NORMAL) {
        return refused(LOCKED);
    } else if (mode == SLEEP) {
        wake(image);
    } else {
        if (mode == CONFIGURATION && timing_forbids_leaving(get(image, BCR2)))
            return refused(LOCKED);
        set(image, MODE, NORMAL);
    }
    return ACCEPTED;
}

/* ---- writing */

/* Bits that a register of a CAN-B may not be written with; RML and RFP cannot be written at all. */
static const uint32_t forbidden[20] = {
    [LAM - MC] = MASK_SPARE, [GAM - MC] = MASK_SPARE, [CDR - MC] = MAILBOX_31, [GIF - MC] = ~0xFFu,
    [GIM - MC] = ~0xFFu,     [BCR1 - MC] = ~0x3FFu,   [BCR2 - MC] = ~0x3FFu,   [TSC - MC] = ~0u,
};

/* The same of either controller: an eCAN has bit 31 in CDR. */
static inline uint32_t forbidden_bits(const uint8_t *image, unsigned r)
{
    return r == CDR && ecan(image) ? 0 : forbidden[r - MC];
}

/* TRR: a request in the slot is marked, any other ends at once. */
static void cancel(uint8_t *image, uint32_t bits)
{
    uint32_t slot = slot_bit(image), hit = bits & get(image, TRS), ended = hit & ~slot;

    set_bits(image, TRR, hit & slot);
    if (ended) {
        clear_bits(image, TRS, ended);
        set_bits(image, AA, ended);
        set_bits(image, GIF, ABORTED);
    }
}

static uint64_t write_mc(uint8_t *image, uint32_t v)
{
    if (get(image, MC) & ~v & get(image, TRS))
        return refused(BUSY);
    set(image, MC, v);
    return ACCEPTED;
}

/* Mailbox 31 of a CAN-B always receives. */
static uint64_t write_md(uint8_t *image, uint32_t v)
{
    uint32_t next = ecan(image) ? v : v | MAILBOX_31, changed = next ^ get(image, MD);

    if (changed & get(image, TRS))
        return refused(BUSY);
    if (changed & get(image, MC))
        return refused(LOCKED);
    set(image, MD, next);
    return ACCEPTED;
}

static uint64_t write_timing(uint8_t *image, unsigned bcr, uint32_t v)
{
    if (get(image, MODE) != CONFIGURATION)
        return refused(LOCKED);
    set(image, bcr, v);
    return ACCEPTED;
}

/* LAM and GAM, which an eCAN keeps as they are. */
static uint64_t write_shared_mask(uint8_t *image, unsigned r, uint32_t v)
{
    if (ecan(image))
        return refused(LOCKED);
    set(image, r, v);
    return ACCEPTED;
}

/* Registers 64 to 95 are the masks, 96 is the protection: words of the image, but 32 further up. */
enum { FIRST_MASK = 64, PROTECTION_REGISTER = 96, FURTHER_UP = 32 };

static inline bool is_of_ecan(uint32_t number)
{
    return number - FIRST_MASK <= PROTECTION_REGISTER - FIRST_MASK;
}

/* What only an eCAN has; no mode and no enabled mailbox locks it. */
static uint64_t write_own(uint8_t *image, struct event e)
{
    uint32_t v = value(e);

    if (asleep(image))
        return refused(ASLEEP);
    if (dirty(e, WORD) || (target(e) != PROTECTION_REGISTER && v & MASK_SPARE))
        return refused(NOT_ALLOWED);
    if (!ecan(image))
        return refused(LOCKED);
    set(image, MC + target(e) - FURTHER_UP, v);
    return ACCEPTED;
}

static uint64_t write_register(uint8_t *image, struct event e)
{
    unsigned r = MC + target(e);
    uint32_t v = value(e);

    if (is_of_ecan(target(e)))
        return write_own(image, e);
    if (r > TSC || r == RML || r == RFP)
        return refused(UNKNOWN);
    if (asleep(image))
        return refused(ASLEEP);
    if (dirty(e, WORD) || (v & forbidden_bits(image, r)))
        return refused(NOT_ALLOWED);
    switch (r) {
    case MC:
        return write_mc(image, v);
    case MD:
        return write_md(image, v);
    case BCR1: case BCR2:
        return write_timing(image, r, v);
    case LAM: case GAM:
        return write_shared_mask(image, r, v);
    case TRS:
        set_bits(image, TRS, v & ~get(image, MD));
        break;
    case TRR:
        cancel(image, v);
        break;
    case RMP:
        clear_bits(image, RMP, v);
        clear_bits(image, RML, v);
        clear_bits(image, RFP, v);
        break;
    case GIF:
        clear_bits(image, GIF, v);
        if (v & OVERFLOWED)
            set(image, TSO, 0);
        break;
    case TA: case AA: case MBTIF: case MBRIF:
        clear_bits(image, r, v);
        break;
    default: /* CDR, MBIM, GIM, TSC */
        set(image, r, v);
    }
    return ACCEPTED;
}

/* Of an enabled mailbox; word 1 is never locked. */
static bool locked_word(const uint8_t *image, unsigned n, unsigned k)
{
    uint32_t bit = 1u << n;

    if (k < 2)
        return k == 0;
    if (get(image, MD) & bit)
        return true;
    return get(image, 4 * n) & RFH && !(get(image, CDR) & bit);
}

static uint64_t write_mailbox(uint8_t *image, struct event e)
{
    unsigned n = target(e), k = word(e);
    uint32_t v = value(e), bit = 1u << (n & 31);

    if (n > 31 || k > 3)
        return refused(UNKNOWN);
    if (asleep(image))
        return refused(ASLEEP);
    if (dirty(e, 0) || (k == 0 && stray_identifier(v)) || (k == 1 && stray_control(v)))
        return refused(NOT_ALLOWED);
    if (bit & (slot_bit(image) | (get(image, TRS) & ~get(image, CDR))))
        return refused(BUSY);
    if (bit & get(image, MC) && locked_word(image, n, k))
        return refused(LOCKED);
    set(image, 4 * n + k, v);
    return ACCEPTED;
}

/* ---- receiving */

#define FRAME_RTR 0x40000000u /* in a frame's value */
#define FRAME_SPARE 0x20000000u

enum { HIGHEST_DLC = 15, MOST_BYTES = 8 }; /* a DLC above 8 stands for eight bytes */

/* The places of the data bytes that a DLC stands for. */
static inline uint64_t bytes_of(uint32_t dlc)
{
    return dlc < MOST_BYTES ? (UINT64_C(1) << 8 * dlc) - 1 : ~UINT64_C(0);
}

/* The data bytes that a frame brings; a remote frame brings none, whatever its DLC. */
static inline uint64_t carried(struct event e)
{
    return value(e) & FRAME_RTR ? 0 : bytes_of(target(e));
}

/* Inline for both who ask: called as a function it made the frames of a step a tenth slower. */
static inline bool allowed_frame(struct event e)
{
    return (e.head & (WORD | BYTE_3)) == 0 && target(e) <= HIGHEST_DLC && !(value(e) & FRAME_SPARE) &&
           stray_identifier(value(e)) == 0 && (e.data & ~carried(e)) == 0;
}

/* The bits that a frame is compared in, where no mask frees them. */
static inline uint32_t compared_bits(uint32_t frame)
{
    return frame & IDE ? IDE | IDENTIFIER : IDE | BASE;
}

/* Where the search stops: a mailbox that matches, or 32; and how many were compared by then. */
struct match {
    uint32_t mailbox, count;
};

/* The mailboxes that a frame is compared with. */
static inline uint32_t candidates_of(const uint8_t *image, uint32_t frame)
{
    return get(image, MC) & (frame & FRAME_RTR ? ~0u : get(image, MD));
}

/* In a CAN-B: upwards, under GAM, and mailbox 31 last, under LAM. */
static struct match search_up(const uint8_t *image, uint32_t frame)
{
    uint32_t candidates = candidates_of(image, frame), compared = compared_bits(frame);
    uint32_t under_gam = compared & ~get(image, GAM), under_lam = compared & ~get(image, LAM);
    struct match m = {NO_MAILBOX, 0};

    for (; candidates; candidates &= candidates - 1) {
        uint32_t n = (uint32_t)__builtin_ctz(candidates), own = get(image, 4 * n);
        uint32_t masked = n == 31 ? under_lam : under_gam;

        m.count++;
        if (((own ^ frame) & (own & MASKED ? masked : compared)) == 0) {
            m.mailbox = n;
            break;
        }
    }
    return m;
}

static inline uint32_t highest_bit(uint32_t bits)
{
    return 31 - (uint32_t)__builtin_clz(bits);
}

/* Receive mailboxes of an eCAN that keep the message they hold: a frame that matches goes past them. */
static inline uint32_t guarded_mailboxes(const uint8_t *image)
{
    return get(image, PROTECTION) & get(image, RMP) & get(image, MD);
}

/* In an eCAN: downwards, each under its own mask. Who is passed over was compared all the same. */
static struct match search_down(const uint8_t *image, uint32_t frame)
{
    uint32_t candidates = candidates_of(image, frame), compared = compared_bits(frame);
    uint32_t guarded = guarded_mailboxes(image), n, own;
    struct match m = {NO_MAILBOX, 0};

    for (; candidates; candidates ^= 1u << n) {
        n = highest_bit(candidates);
        own = get(image, 4 * n);
        m.count++;
        if (((own ^ frame) & compared & ~(own & MASKED ? get(image, MASKS + n) : 0)) == 0 && !(guarded >> n & 1)) {
            m.mailbox = n;
            break;
        }
    }
    return m;
}

static inline struct match search(const uint8_t *image, uint32_t frame)
{
    return ecan(image) ? search_down(image, frame) : search_up(image, frame);
}

static void store(uint8_t *image, uint32_t n, struct event e)
{
    uint32_t bit = 1u << n, frame = value(e), remote = frame & FRAME_RTR;
    uint8_t *data = image + 16 * n + 8;
    uint64_t kept = get_double(data) & ~carried(e), now = kept | e.data;

    set(image, 4 * n, (get(image, 4 * n) & (MASKED | RFH)) | (frame & (IDE | IDENTIFIER)));
    set(image, 4 * n + 1, get(image, TSC) << 16 | (remote ? RTR : 0) | target(e));
    memcpy(data, &now, sizeof now);
    if (get(image, RMP) & bit) {
        set_bits(image, RML, bit);
        set_bits(image, GIF, LOST);
    }
    set_bits(image, RMP, bit);
    set_bits(image, MBRIF, bit & get(image, MBIM));
    if (remote) {
        set_bits(image, RFP, bit);
        set_bits(image, GIF, REMOTE_CAME);
    } else {
        clear_bits(image, RFP, bit);
    }
}

/* A heard frame was good, whoever wanted it. */
static void count_good_frame(uint8_t *image)
{
    uint32_t rec = get(image, REC);

    if (rec)
        set(image, REC, rec > 127 ? 127 : rec - 1);
}

/* A transmit mailbox is matched by a remote frame alone: it replies, or keeps silent. */
static uint64_t deliver(uint8_t *image, struct match m, struct event e)
{
    if (m.mailbox == NO_MAILBOX)
        return found(NO_MAILBOX, m.count);
    if (get(image, MD) >> m.mailbox & 1)
        store(image, m.mailbox, e);
    else if (get(image, 4 * m.mailbox) & RFH)
        set_bits(image, TRS, 1u << m.mailbox);
    else
        return found(NO_MAILBOX, m.count);
    return found(m.mailbox, m.count);
}

static uint64_t receive(uint8_t *image, struct event e)
{
    if (!allowed_frame(e))
        return refused(NOT_ALLOWED);
    if (slot_filled(image))
        return refused(BUSY);
    if (!on_bus(image)) {
        if (asleep(image) && get(image, OPTIONS) & WUBA)
            wake(image);
        return ACCEPTED;
    }
    count_good_frame(image);
    return deliver(image, search(image, value(e)), e);
}

static uint64_t receive_error(uint8_t *image, struct event e)
{
    uint32_t before, rec;

    if (dirty(e, TARGET | WORD) || (value(e) != 1 && value(e) != 8))
        return refused(NOT_ALLOWED);
    if (slot_filled(image))
        return refused(BUSY);
    if (!on_bus(image))
        return ACCEPTED;
    before = conditions(image);
    rec = get(image, REC) + value(e);
    set(image, REC, rec > 255 ? 255 : rec);
    set_bits(image, GIF, conditions(image) & ~before);
    return ACCEPTED;
}

/* ---- sending */

/* What goes over the bus first wins: base, then RTR or SRR, then IDE, then the rest. */
static uint32_t arbitration_key(uint32_t identifier, uint32_t control)
{
    uint32_t base = (identifier & BASE) << 3, rtr = control >> 4 & 1;

    if (identifier & IDE)
        return base | 1u << 20 | 1u << 19 | (identifier & LOW) << 1 | rtr;
    return base | rtr << 20;
}

static inline uint32_t key_of(const uint8_t *image, uint32_t n)
{
    return arbitration_key(get(image, 4 * n), get(image, 4 * n + 1));
}

/* The smallest key among these mailboxes, at least one; the lower number where two are equal. */
static uint32_t smallest_key(const uint8_t *image, uint32_t eligible)
{
    uint32_t best = (uint32_t)__builtin_ctz(eligible), best_key = key_of(image, best);

    while (eligible &= eligible - 1) {
        uint32_t n = (uint32_t)__builtin_ctz(eligible), key = key_of(image, n);

        if (key < best_key) {
            best = n;
            best_key = key;
        }
    }
    return best;
}

static uint64_t start(uint8_t *image, struct event e)
{
    uint32_t eligible, n;

    if (dirty(e, TARGET | WORD | VALUE))
        return refused(NOT_ALLOWED);
    if (slot_filled(image))
        return refused(BUSY);
    eligible = get(image, TRS) & get(image, MC) & ~get(image, CDR) & ~get(image, TRR);
    if (!on_bus(image) || eligible == 0)
        return ACCEPTED;
    if (get(image, OPTIONS) & MTOS)
        n = smallest_key(image, eligible);
    else
        n = (uint32_t)__builtin_ctz(eligible);
    set(image, SLOT, n);
    return found(n, 0);
}

static void sent(uint8_t *image, uint32_t n)
{
    uint32_t bit = 1u << n, tec = get(image, TEC), control = get(image, 4 * n + 1);

    clear_bits(image, TRS, bit);
    set(image, TRR, 0); /* it can only stand at the slot */
    set_bits(image, TA, bit);
    set_bits(image, MBTIF, bit & get(image, MBIM));
    set(image, 4 * n + 1, get(image, TSC) << 16 | (control & 0xFFFF));
    set(image, TEC, tec - (tec > 0));
}

/* Lost or failed: a request to cancel now ends it, else it goes on waiting. */
static void not_sent(uint8_t *image, uint32_t bit)
{
    if (get(image, TRR) == 0)
        return;
    clear_bits(image, TRS, bit);
    set(image, TRR, 0);
    set_bits(image, AA, bit);
    set_bits(image, GIF, ABORTED);
}

enum { SENT, ARBITRATION_LOST, ERROR, UNACKNOWLEDGED };

/*
 * What a failed sending adds to TEC: nothing where only the acknowledgement was missing and the sender was
 * passive before, since it may be alone on the bus.
 */
static uint32_t rise(uint32_t how, uint32_t before)
{
    return how == UNACKNOWLEDGED && before & PASSIVE ? 0 : 8;
}

static void count_send_error(uint8_t *image, uint32_t how)
{
    uint32_t before = conditions(image), tec = get(image, TEC) + rise(how, before);

    set(image, TEC, tec > BUS_OFF ? BUS_OFF : tec);
    set_bits(image, GIF, conditions(image) & ~before);
}

static uint64_t outcome(uint8_t *image, struct event e)
{
    uint32_t how = target(e), n = get(image, SLOT);

    if (how > UNACKNOWLEDGED)
        return refused(UNKNOWN);
    if (dirty(e, WORD | VALUE))
        return refused(NOT_ALLOWED);
    if (n == EMPTY)
        return refused(NOTHING_SENT);
    set(image, SLOT, EMPTY);
    if (how == SENT)
        sent(image, n);
    else
        not_sent(image, 1u << n);
    if (how == ERROR || how == UNACKNOWLEDGED)
        count_send_error(image, how);
    take_waiting_mode(image);
    return found(n, 0);
}

/* ---- the rest of the bus and the clock */

static uint64_t eleven_recessive(uint8_t *image, struct event e)
{
    uint32_t count = get(image, RECOVERY) + 1;

    if (dirty(e, TARGET | WORD | VALUE))
        return refused(NOT_ALLOWED);
    if (get(image, TEC) != BUS_OFF)
        return ACCEPTED;
    if (count < 128) {
        set(image, RECOVERY, count);
        return ACCEPTED;
    }
    set(image, RECOVERY, 0);
    set(image, TEC, 0);
    set(image, REC, 0);
    take_waiting_mode(image);
    return ACCEPTED;
}

static uint64_t tick(uint8_t *image, struct event e)
{
    uint32_t next = (get(image, TSC) + 1) & 0xFFFF;

    if (dirty(e, TARGET | WORD | VALUE))
        return refused(NOT_ALLOWED);
    if (asleep(image))
        return ACCEPTED;
    set(image, TSC, next);
    if (next == 0) {
        set(image, TSO, 1);
        set_bits(image, GIF, OVERFLOWED);
    }
    return ACCEPTED;
}

static uint64_t set_options(uint8_t *image, struct event e)
{
    if (asleep(image))
        return refused(ASLEEP);
    if (dirty(e, TARGET | WORD) || value(e) > (MTOS | WUBA))
        return refused(NOT_ALLOWED);
    set(image, OPTIONS, value(e));
    return ACCEPTED;
}

/* All words behind the mailboxes. */
static void fresh_words(uint8_t *image, uint32_t profile)
{
    memset(image + REGISTER_BYTES, 0, IMAGE_BYTES - REGISTER_BYTES);
    set(image, PROFILE, profile);
    set(image, MD, profile == ECAN ? 0 : MAILBOX_31);
    set(image, MODE, CONFIGURATION);
    set(image, WAITING, NO_MODE);
    set(image, SLOT, EMPTY);
}

static uint64_t reset(uint8_t *image, struct event e)
{
    if (dirty(e, TARGET | WORD | VALUE))
        return refused(NOT_ALLOWED);
    fresh_words(image, get(image, PROFILE));
    return ACCEPTED;
}

/* ---- fresh, step and read */

uint64_t reference_fresh(uint8_t *image, size_t image_len, uint32_t profile)
{
    if (image_len != IMAGE_BYTES)
        return refused(BAD_IMAGE);
    if (profile > ECAN)
        return refused(NOT_ALLOWED);
    memset(image, 0, REGISTER_BYTES);
    fresh_words(image, profile);
    return ACCEPTED;
}

uint64_t reference_step(uint8_t *image, size_t image_len, const uint8_t *event, size_t event_len)
{
    struct event e;

    if (!good(image, image_len))
        return refused(BAD_IMAGE);
    if (event_len != 16)
        return refused(UNKNOWN);
    e = event_at(event);
    switch (operation(e)) {
    case 0: return write_register(image, e);
    case 1: return write_mailbox(image, e);
    case 2: return receive(image, e);
    case 3: return start(image, e);
    case 4: return outcome(image, e);
    case 5: return receive_error(image, e);
    case 6: return eleven_recessive(image, e);
    case 7: return tick(image, e);
    case 8: return request_mode(image, e);
    case 9: return set_options(image, e);
    case 10: return reset(image, e);
    default: return refused(UNKNOWN);
    }
}

/* The slot as GSR has it, in five bits: 31 is nobody's there, as mailbox 31 of a CAN-B does not send. */
static inline uint32_t shown_slot(const uint8_t *image)
{
    return slot_filled(image) ? get(image, SLOT) : 31;
}

/* Of a CAN-B that is awake. */
static uint32_t gsr(const uint8_t *image)
{
    uint32_t mode = get(image, MODE);

    return shown_slot(image) << 12 | (uint32_t)slot_filled(image) << 10 |
           (uint32_t)(mode == SUSPEND) << 8 | (uint32_t)(mode == CONFIGURATION) << 7 |
           get(image, TSO) << 3 | conditions(image);
}

enum { GSR = 32 };

static uint32_t read_gsr(const uint8_t *image)
{
    return asleep(image) ? 0x0001F040 : gsr(image);
}

static uint32_t read_word(const uint8_t *image, unsigned at)
{
    return asleep(image) ? 0 : get(image, at);
}

/* An eCAN has no GSR. What only it has can be read of a CAN-B too. */
uint64_t reference_read(const uint8_t *image, size_t image_len, uint32_t number)
{
    if (!good(image, image_len))
        return (uint64_t)BAD_IMAGE << 32;
    if (number == GSR && !ecan(image))
        return read_gsr(image);
    if (number <= REC - MC)
        return read_word(image, MC + number);
    if (is_of_ecan(number))
        return read_word(image, MC + number - FURTHER_UP);
    return (uint64_t)UNKNOWN << 32;
}

/* ---- comparing: an entry is three words, the number of a word and what the two images have there */

#define IMAGE_WORDS (IMAGE_BYTES / 4)
#define ENTRY_WORDS 3
#define ENTRY_BYTES (4 * ENTRY_WORDS)

/* The entry of a word, and where the next one goes: behind it, or over it where the word is equal. */
static inline uint32_t *list_word(uint32_t *at, uint32_t number, uint32_t first, uint32_t second)
{
    at[0] = number;
    at[1] = first;
    at[2] = second;
    return at + (first != second ? ENTRY_WORDS : 0);
}

static inline uint32_t *list_two(uint32_t *at, uint32_t number, uint64_t first, uint64_t second)
{
    at = list_word(at, number, (uint32_t)first, (uint32_t)second);
    return list_word(at, number + 1, (uint32_t)(first >> 32), (uint32_t)(second >> 32));
}

/*
 * Four words at once are looked at: of two images of one run most are equal. Protection and profile are left, and
 * listed as they stand. Answers how many entries.
 */
static size_t list_differences(uint32_t *entries, const uint8_t *first, const uint8_t *second)
{
    uint32_t *at = entries;

    for (unsigned n = 0; n < PROTECTION; n += 4) {
        uint64_t first_low = get_double(first + 4 * n), first_high = get_double(first + 4 * n + 8);
        uint64_t second_low = get_double(second + 4 * n), second_high = get_double(second + 4 * n + 8);

        if (((first_low ^ second_low) | (first_high ^ second_high)) == 0)
            continue;
        at = list_two(at, n, first_low, second_low);
        at = list_two(at, n + 2, first_high, second_high);
    }
    at = list_two(at, PROTECTION, get_double(first + 4 * PROTECTION), get_double(second + 4 * PROTECTION));
    return (size_t)(at - entries) / ENTRY_WORDS;
}

/* In pieces: a memcpy of more than 2,047 bytes is very slow under the emulator of the bench. */
static void copy_list(uint8_t *list, const uint32_t *entries, size_t count)
{
    enum { PIECE = 64 };

    for (; count > PIECE; count -= PIECE, list += ENTRY_BYTES * PIECE, entries += ENTRY_WORDS * PIECE)
        memcpy(list, entries, ENTRY_BYTES * PIECE);
    memcpy(list, entries, ENTRY_BYTES * count);
}

/* The list is made apart from the caller's, which may not be written before it is known to fit. */
uint64_t reference_compare(const uint8_t *first, size_t first_len, const uint8_t *second,
                           size_t second_len, uint8_t *list, size_t list_len)
{
    uint32_t entries[ENTRY_WORDS * IMAGE_WORDS];
    size_t count;

    if (!good(first, first_len) || !good(second, second_len))
        return refused(BAD_IMAGE);
    count = list_differences(entries, first, second);
    if (list_len < ENTRY_BYTES * count)
        return refused(NO_ROOM);
    copy_list(list, entries, count);
    return found(NO_MAILBOX, (uint32_t)count);
}

/* ---- explaining: a line is mailbox, reason, bit number and five zeros, here as one number */

enum { DISABLED = 1, TRANSMITS, IDE_DIFFERS, BIT_DIFFERS, MATCHED, NOT_HEARD, PROTECTED };
enum { FRAME = 2, IN_BUS_OFF = 4 };

#define LINE_BYTES 8

static inline uint64_t line(uint32_t mailbox, uint32_t reason, uint32_t bit)
{
    return mailbox | reason << 8 | bit << 16;
}

static inline uint32_t reason_of(uint64_t one)
{
    return one >> 8 & 0xFF;
}

static inline unsigned mask_of(const uint8_t *image, uint32_t n)
{
    if (ecan(image))
        return MASKS + n;
    return n == 31 ? LAM : GAM;
}

/* What the mailbox's mask frees; without GAME, LAME or AME, nothing. */
static inline uint32_t freed_bits(const uint8_t *image, uint32_t n)
{
    return get(image, 4 * n) & MASKED ? get(image, mask_of(image, n)) : 0;
}

/* IDE, and the bits of the identifier, that are compared, not freed, and differ. */
static inline uint32_t differing_bits(const uint8_t *image, uint32_t n, uint32_t frame)
{
    return (get(image, 4 * n) ^ frame) & compared_bits(frame) & ~freed_bits(image, n);
}

/* The first reason that holds. */
static uint64_t explain_mailbox(const uint8_t *image, uint32_t n, uint32_t frame)
{
    uint32_t differing;

    if (!(get(image, MC) >> n & 1))
        return line(n, DISABLED, 0);
    if (!(get(image, MD) >> n & 1) && !(frame & FRAME_RTR))
        return line(n, TRANSMITS, 0);
    differing = differing_bits(image, n, frame);
    if (differing & IDE)
        return line(n, IDE_DIFFERS, 0);
    if (differing)
        return line(n, BIT_DIFFERS, highest_bit(differing));
    if (ecan(image) && guarded_mailboxes(image) >> n & 1)
        return line(n, PROTECTED, 0);
    return line(n, MATCHED, 0);
}

/* Of a frame that is heard: up to the mailbox that matches, or all. Answers how many lines. */
static size_t explain_search(uint64_t *lines, const uint8_t *image, uint32_t frame)
{
    uint32_t turned = ecan(image) ? 31 : 0; /* the k-th mailbox of the search is k, or 31 - k */

    for (uint32_t k = 0; k < 32; k++) {
        lines[k] = explain_mailbox(image, k ^ turned, frame);
        if (reason_of(lines[k]) == MATCHED)
            return k + 1;
    }
    return 32;
}

/* WUBA would wake the model, and the frame is not heard all the same. */
static uint64_t explain_silence(const uint8_t *image)
{
    return line(NO_MAILBOX, NOT_HEARD, get(image, TEC) == BUS_OFF ? IN_BUS_OFF : get(image, MODE));
}

/* A filled slot is not asked about. The lines are made apart, as the entries of a comparison are. */
uint64_t reference_explain(const uint8_t *image, size_t image_len, const uint8_t *event, size_t event_len,
                           uint8_t *list, size_t list_len)
{
    uint64_t lines[32];
    size_t count = 1;
    struct event e;

    if (!good(image, image_len))
        return refused(BAD_IMAGE);
    if (event_len != 16 || event[0] != FRAME)
        return refused(UNKNOWN);
    e = event_at(event);
    if (!allowed_frame(e))
        return refused(NOT_ALLOWED);
    if (on_bus(image))
        count = explain_search(lines, image, value(e));
    else
        lines[0] = explain_silence(image);
    if (list_len < LINE_BYTES * count)
        return refused(NO_ROOM);
    memcpy(list, lines, LINE_BYTES * count);
    return found(NO_MAILBOX, (uint32_t)count);
}

/* ---- traces: three sections, each a count of two bytes and as many events */

#define EVENT_BYTES 16
#define MOST_EVENTS 1000

static size_t count_at(const uint8_t *section)
{
    return (size_t)section[0] | (size_t)section[1] << 8;
}

/* Mailbox writes, then register writes and options, then anything; the operation alone decides (D55). */
static bool belongs(int section, uint8_t first_byte)
{
    switch (section) {
    case 0: return first_byte == 1;
    case 1: return first_byte == 0 || first_byte == 9;
    default: return true;
    }
}

/* How many of these bytes are the section, its count among them; 0 if they do not begin with one. */
static size_t section_bytes(int section, const uint8_t *bytes, size_t len)
{
    size_t count, whole;

    if (len < 2)
        return 0;
    count = count_at(bytes);
    whole = 2 + EVENT_BYTES * count;
    if (count > MOST_EVENTS || len < whole)
        return 0;
    for (size_t at = 2; at < whole; at += EVENT_BYTES)
        if (!belongs(section, bytes[at]))
            return 0;
    return whole;
}

static bool well_formed(const uint8_t *file, size_t len)
{
    for (int section = 0; section < 3; section++) {
        size_t bytes = section_bytes(section, file, len);

        if (bytes == 0)
            return false;
        file += bytes;
        len -= bytes;
    }
    return len == 0;
}

/* The line of one step, at this place of the listing. Answers its length. */
static int print_step(char *at, unsigned number, uint64_t answer)
{
    unsigned refusal = answer & 0xFF, mailbox = answer >> 8 & 0xFF, count = (unsigned)(answer >> 16);

    return sprintf(at, "%u %u %u %u\n", number, refusal, mailbox, count);
}

/* The file is judged whole before it is run (D56), and the numbers go through all sections (D57). */
size_t reference_list(char *listing, const uint8_t *file, size_t file_len)
{
    uint8_t image[IMAGE_BYTES];
    unsigned number = 0;
    char *at = listing;

    if (!well_formed(file, file_len))
        return (size_t)sprintf(listing, "trace refused 8\n");
    at += sprintf(at, "step code mailbox count\n");
    reference_fresh(image, IMAGE_BYTES, CAN_B);
    for (int section = 0; section < 3; section++) {
        size_t count = count_at(file);

        for (file += 2; count > 0; count--, file += EVENT_BYTES)
            at += print_step(at, ++number, reference_step(image, IMAGE_BYTES, file, EVENT_BYTES));
    }
    at += sprintf(at, "end %u\n", number);
    return (size_t)(at - listing);
}
