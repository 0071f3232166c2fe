/*
 * Frostsorrel: a proved model of a CAN controller with 32 mailboxes, of either of two makers: the CAN-B
 * of the one, and the eCAN of the other, which differs in how it receives.
 *
 * A model is 776 bytes that belong to the caller: the image. Bytes 0 to 511 are the mailboxes, 16
 * bytes each; from byte 512 on stand the 32 register words, low byte first, from 640 on 32 masks, at 768
 * the protection, at 772 the profile. The library keeps nothing between calls, allocates nothing, and
 * touches no other memory, so every image is a model of its own. Link the archive with a C library: the
 * compiled code calls its memcpy and memset, and nothing else.
 *
 * The profile says which controller it is: 0 a CAN-B, 1 an eCAN. frostsorrel_fresh sets it for good: no
 * event changes it, a reset neither. What the two do not share:
 *
 *                                     CAN-B                           eCAN
 *    a frame is compared              from mailbox 0 upwards          from mailbox 31 downwards
 *    a mailbox with GAME is under     GAM, mailbox 31 under LAM       mask n of mailbox n
 *    a frame held can be protected    no                              yes, by its bit of the protection
 *    mailbox 31                       receives only                   is like the others
 *    LAM, GAM                         are written                     refusal 6 for a write
 *    masks, protection                refusal 6 for a write           are written
 *    GSR                              is read                         refusal 2 for a read
 *
 * An eCAN passes over a receive mailbox that matches but has RMP set and its bit of the protection: it keeps
 * what it holds, RML does not change, and the search goes on at the next one. So it is with remote frames too.
 * In a CAN-B masks and protection do nothing, in an eCAN LAM and GAM; all of them can be read in both.
 *
 * A pointer and the length after it name the caller's bytes. The pointer must be valid, also where
 * the length is 0, and needs no alignment; nobody else may write those bytes during the call, and an
 * event may not lie within the image it is fed to. Everything else is checked: any length, any
 * content and any number gets the answer stated below.
 *
 * "Document 01" is the paper with the exact rules, "document 02" the one with what came later, and the
 * crate `rules` states them one by one. A good image is one that they allow. What frostsorrel_fresh has
 * filled is good.
 */
#ifndef FROSTSORREL_H
#define FROSTSORREL_H

#include <stddef.h>
#include <stdint.h>

#ifdef __cplusplus
extern "C" {
#endif

#define FROSTSORREL_VERSION "0.7.0"
#define FROSTSORREL_VERSION_MAJOR 0
#define FROSTSORREL_VERSION_MINOR 7
#define FROSTSORREL_VERSION_PATCH 0

#define FROSTSORREL_IMAGE_BYTES 776
#define FROSTSORREL_IMAGE_WORDS 194 /* four of each mailbox, 32 register words, 32 masks, protection, profile */
#define FROSTSORREL_EVENT_BYTES 16
#define FROSTSORREL_MAILBOXES 32
#define FROSTSORREL_NO_MAILBOX 32

#define FROSTSORREL_SECTION_EVENTS 1000 /* the most that a section of a trace has */
#define FROSTSORREL_TRACE_BYTES 48006   /* the longest trace: three full sections */
#define FROSTSORREL_LISTING_BYTES 39033 /* room for any listing */

#define FROSTSORREL_STREAM_BYTES 32        /* the state of a stream */
#define FROSTSORREL_STREAM_OPEN_BYTES 24   /* what an opening writes */
#define FROSTSORREL_STREAM_FEED_BYTES 31   /* these and the part's length are room for what a feeding writes */
#define FROSTSORREL_STREAM_CLOSE_BYTES 16  /* room for what a closing writes */

#define FROSTSORREL_ENTRY_BYTES 12        /* of a list of differences */
#define FROSTSORREL_DIFFERENCE_BYTES 2328 /* room for any such list: an entry for each word */

#define FROSTSORREL_LINE_BYTES 8          /* of an explanation */
#define FROSTSORREL_EXPLANATION_BYTES 256 /* room for any explanation: a line for each mailbox */

/* The refusals. Where several apply, the lowest is given; the calls of a stream have an order of their own. */
enum {
    FROSTSORREL_ACCEPTED = 0,
    FROSTSORREL_BAD_IMAGE = 1,   /* the image is not good; of a stream: its length, or the state */
    FROSTSORREL_UNKNOWN = 2,     /* no such operation, register, mailbox, word or outcome; no frame */
    FROSTSORREL_ASLEEP = 3,      /* not while the model sleeps */
    FROSTSORREL_NOT_ALLOWED = 4, /* an unused byte is not 0, or the value, DLC or profile is not allowed */
    FROSTSORREL_BUSY = 5,        /* something is being sent, or waits to be */
    FROSTSORREL_LOCKED = 6,      /* not in this mode or profile, or not while the mailbox is enabled */
    FROSTSORREL_SLOT_EMPTY = 7,  /* an outcome, but nothing is being sent */
    FROSTSORREL_BAD_TRACE = 8,   /* the file is no trace, or the stream is over; no step answers it */
    FROSTSORREL_NO_ROOM = 9      /* what is to be written does not fit; no step answers it */
};

/* The profiles. */
enum {
    FROSTSORREL_CAN_B = 0,
    FROSTSORREL_ECAN = 1
};

/* The operations of an event: its first byte. */
enum {
    FROSTSORREL_WRITE_REGISTER = 0,
    FROSTSORREL_WRITE_MAILBOX = 1,
    FROSTSORREL_FRAME = 2,
    FROSTSORREL_START = 3,
    FROSTSORREL_OUTCOME = 4,
    FROSTSORREL_RECEIVE_ERROR = 5,
    FROSTSORREL_ELEVEN_RECESSIVE = 6,
    FROSTSORREL_TICK = 7,
    FROSTSORREL_MODE = 8,
    FROSTSORREL_OPTIONS = 9,
    FROSTSORREL_RESET = 10
};

/*
 * How a sending went: the target of FROSTSORREL_OUTCOME.
 *
 * Unacknowledged is what a tool alone on its bus meets: nobody acknowledges the frame, and nobody puts a
 * dominant bit over the passive error flag. It does all that an error does, but for TEC. Where TEC or REC
 * was above 127 before it, so that the model was passive already, TEC stays; else it rises by 8, as after
 * an error. Alone it leads to passive, and never to bus off. A sleep that waits is entered at the end of
 * the step, and makes TEC 0.
 */
enum {
    FROSTSORREL_SENT = 0,
    FROSTSORREL_ARBITRATION_LOST = 1,
    FROSTSORREL_ERROR = 2,
    FROSTSORREL_UNACKNOWLEDGED = 3
};

/* The value of FROSTSORREL_MODE. */
enum {
    FROSTSORREL_NORMAL = 0,
    FROSTSORREL_CONFIGURATION = 1,
    FROSTSORREL_SLEEP = 2,
    FROSTSORREL_SUSPEND = 3
};

/* The registers, by the numbers of documents 01 and 02. The profile has none. */
enum {
    FROSTSORREL_MC = 0,
    FROSTSORREL_MD = 1,
    FROSTSORREL_TRS = 2,
    FROSTSORREL_TRR = 3,
    FROSTSORREL_TA = 4,
    FROSTSORREL_AA = 5,
    FROSTSORREL_RMP = 6,
    FROSTSORREL_RML = 7,
    FROSTSORREL_LAM = 8,
    FROSTSORREL_GAM = 9,
    FROSTSORREL_RFP = 10,
    FROSTSORREL_CDR = 11,
    FROSTSORREL_MBTIF = 12,
    FROSTSORREL_MBRIF = 13,
    FROSTSORREL_MBIM = 14,
    FROSTSORREL_GIF = 15,
    FROSTSORREL_GIM = 16,
    FROSTSORREL_BCR1 = 17,
    FROSTSORREL_BCR2 = 18,
    FROSTSORREL_TSC = 19,
    FROSTSORREL_TEC = 20,
    FROSTSORREL_REC = 21,
    FROSTSORREL_GSR = 32,
    FROSTSORREL_MASK_0 = 64,    /* the mask of mailbox n is FROSTSORREL_MASK_0 + n */
    FROSTSORREL_MASK_31 = 95,
    FROSTSORREL_PROTECTION = 96 /* a bit for each mailbox */
};

/* The words of the image behind the registers: nobody writes or reads them by number. */
enum {
    FROSTSORREL_WORD_MODE = 22,
    FROSTSORREL_WORD_WAITING = 23,  /* the mode that waits, or FROSTSORREL_NO_MODE */
    FROSTSORREL_WORD_SLOT = 24,     /* the mailbox that is being sent, or FROSTSORREL_EMPTY_SLOT */
    FROSTSORREL_WORD_RECOVERY = 25, /* how often eleven recessive bits came in this bus off */
    FROSTSORREL_WORD_OPTIONS = 26,
    FROSTSORREL_WORD_TSO = 27
};
enum { FROSTSORREL_NO_MODE = 4, FROSTSORREL_EMPTY_SLOT = 32 };

/* Word 0 of a mailbox. The value of a frame event has IDE and the identifier in the same places. */
#define FROSTSORREL_IDE 0x80000000u             /* the identifier is an extended one */
#define FROSTSORREL_GAME 0x40000000u            /* GAM (LAM in mailbox 31), in an eCAN its mask, frees bits */
#define FROSTSORREL_RFH 0x20000000u             /* a transmit mailbox replies to remote frames */
#define FROSTSORREL_IDENTIFIER_BITS 0x1FFFFFFFu /* a standard identifier is in the upper 11 of these */
#define FROSTSORREL_FRAME_RTR 0x40000000u       /* in the value of a frame event: a remote frame */

/* Word 1 of a mailbox. Its time stamp is in bits 31 to 16, and bits 15 to 5 are 0. */
#define FROSTSORREL_RTR 0x10u
#define FROSTSORREL_DLC_BITS 0xFu

/*
 * The DLC of a frame, and of a mailbox, says how many data bytes a data frame carries. ISO 11898-1 lets
 * it be 9 to 15 in a classic data frame, which then carries eight, and in a remote frame, which carries
 * none. The number is kept as it came.
 */
#define FROSTSORREL_HIGHEST_DLC 15    /* a frame with a higher one gets refusal 4 */
#define FROSTSORREL_MOST_DATA_BYTES 8 /* a higher DLC stands for these eight */

/* The bits of GIF, by the manual's names. */
enum {
    FROSTSORREL_WLIF = 0x01,   /* warning began */
    FROSTSORREL_EPIF = 0x02,   /* passive began */
    FROSTSORREL_BOIF = 0x04,   /* bus off began */
    FROSTSORREL_TSOIF = 0x08,  /* the time stamp counter went from 65,535 to 0 */
    FROSTSORREL_TRMABF = 0x10, /* a request to send was aborted */
    FROSTSORREL_RMLIF = 0x20,  /* a frame that nobody had released was overwritten */
    FROSTSORREL_WUIF = 0x40,   /* the model woke */
    FROSTSORREL_RFPF = 0x80    /* a remote frame was stored */
};

/* The bits of GSR, by the manual's names. */
enum {
    FROSTSORREL_GSR_EW = 0x001,   /* warning */
    FROSTSORREL_GSR_EP = 0x002,   /* passive */
    FROSTSORREL_GSR_BO = 0x004,   /* bus off */
    FROSTSORREL_GSR_TSO = 0x008,  /* time stamp overflow */
    FROSTSORREL_GSR_SMA = 0x040,  /* sleep */
    FROSTSORREL_GSR_CCE = 0x080,  /* configuration */
    FROSTSORREL_GSR_SUA = 0x100,  /* suspend */
    FROSTSORREL_GSR_TM = 0x400,   /* a mailbox is in the slot */
    FROSTSORREL_GSR_MIS = 0x1F000 /* the slot's number, or FROSTSORREL_GSR_MIS_EMPTY */
};
#define FROSTSORREL_GSR_MIS_SHIFT 12
#define FROSTSORREL_GSR_MIS_EMPTY 31 /* in the image an empty slot is FROSTSORREL_EMPTY_SLOT, which these bits cannot hold */

/* The options: the value of FROSTSORREL_OPTIONS. */
enum {
    FROSTSORREL_MTOS = 1, /* the smallest arbitration key is sent first, not the lowest mailbox */
    FROSTSORREL_WUBA = 2  /* a frame wakes the model */
};

/* The reasons of an explanation. A mailbox gets the first that holds of it. */
enum {
    FROSTSORREL_DISABLED = 1,    /* the mailbox is not enabled in MC */
    FROSTSORREL_TRANSMITS = 2,   /* it transmits, and the frame is a data frame */
    FROSTSORREL_IDE_DIFFERS = 3, /* one is standard and the other extended, and no mask frees IDE */
    FROSTSORREL_BIT_DIFFERS = 4, /* an identifier bit that is compared and not freed */
    FROSTSORREL_MATCHED = 5,     /* the search stops here */
    FROSTSORREL_NOT_HEARD = 6,   /* no mailbox: the model takes no part on the bus */
    FROSTSORREL_PROTECTED = 7    /* it matches, but keeps the frame it holds: the search goes on; before 5 */
};

/*
 * In the place of the mode, where a frame is not heard: the model is in bus off. frostsorrel_mode_name does
 * not know this one: its 4 is a waiting mode.
 */
enum { FROSTSORREL_IN_BUS_OFF = 4 };

/* The levels of TEC and REC: above 96 is warning, above 127 is passive, and TEC 256 is bus off. */
enum { FROSTSORREL_WARNING_ABOVE = 96, FROSTSORREL_PASSIVE_ABOVE = 127, FROSTSORREL_BUS_OFF_TEC = 256 };

/*
 * Makes the image of a model that has just been switched on.
 *
 * image_len is 776, and profile 0 (CAN-B) or 1 (eCAN): whatever the bytes held, all of them are 0 afterwards,
 * but for these words: the mode is 1 (configuration), the waiting mode is 4 (none), the slot is 32 (empty),
 * the profile is the one asked for, and MD is 0x80000000 in a CAN-B, where mailbox 31 always receives. The
 * answer is 8192: refusal 0, mailbox 32, count 0.
 *
 * Any other image_len: no byte is written. The answer is 8193: refusal 1, mailbox 32, count 0.
 * 776, and any other profile: no byte is written. The answer is 8196: refusal 4, mailbox 32, count 0.
 */
uint64_t frostsorrel_fresh(uint8_t *image, size_t image_len, uint32_t profile);

/*
 * Feeds one event to the model: the image becomes the next one.
 *
 * An event is 16 bytes: operation, target, word, 0, the value in four bytes, low byte first, and
 * eight data bytes. Bytes that the operation does not use must be 0; in this table they are blank:
 *
 *    operation                   target      word    value
 *    0  register write           0 to 19, 64 to 96   what is written
 *    1  mailbox write            0 to 31     0 to 3  what is written
 *    2  frame                    DLC 0 to 15         bit 31 IDE, 30 RTR, 28 to 0 identifier
 *    3  start of a sending
 *    4  outcome of the sending   0 to 3
 *    5  receive error                                1 or 8
 *    6  eleven recessive bits
 *    7  tick of the time stamp
 *    8  mode                                         0 to 3
 *    9  options                                      bit 0 MTOS, bit 1 WUBA
 *   10  reset
 *
 * The data bytes belong to data frames alone: the first DLC of them, or all eight if the DLC is above 8.
 *
 * A refused event gets the lowest number that applies, mailbox 32 and count 0, and not one byte of
 * the image is written:
 *
 *   1  the image is not good (a length other than 776 included, as the 640 of old images)
 *   2  event_len is not 16; or there is no such operation, register, mailbox, word or outcome; or it
 *      writes RML or RFP, which can only be read
 *   3  the model is asleep, and this is a register write, a mailbox write or options
 *   4  an unused byte is not 0; or a frame has a DLC above 15; or the value is not allowed, as one that
 *      breaks the layout of word 0 or 1 of a mailbox, or a mask with bit 30 or 29
 *   5  busy: a frame, start or receive error while a mailbox is in the slot; a write to that mailbox,
 *      or to one whose TRS is set and CDR is not; an MC write that turns off, or an MD write that
 *      turns round, a mailbox with TRS set
 *   6  locked: an MD write that turns round an enabled mailbox; BCR1 or BCR2 outside configuration;
 *      a mailbox write to word 0 of an enabled mailbox, or to words 2 and 3 if it receives, or sends
 *      with RFH set and CDR clear; a change of mode that neither leaves nor enters normal; leaving
 *      configuration with a BCR2 that cannot work; masks or protection in a CAN-B, LAM or GAM in an eCAN
 *   7  an outcome while no mailbox is in the slot
 *
 * An accepted event leaves a good image again, the one that document 01 lays down (its sections
 * "Writing", "Receiving" and "Sending, errors, modes"; for outcome 3 request b) of document 02, for
 * a DLC above 8 its request c), for an eCAN its request g); docs/DECISIONS.md settles what they leave open),
 * and the answer has refusal 0 and
 *
 *   for a frame      the mailbox that stored it or is to reply to it, else 32; the count says how
 *                    many mailboxes were compared with it, those among them that it was passed over by
 *   for a start      the mailbox that went into the slot, else 32; count 0
 *   for an outcome   the mailbox that was in the slot; count 0
 *   for the rest     mailbox 32, count 0
 */
uint64_t frostsorrel_step(uint8_t *image, size_t image_len, const uint8_t *event, size_t event_len);

/*
 * Reads one register. No byte of the image is ever written. The first line that applies decides:
 *
 *   the image is not good (a length other than 776 included)    refusal 1, value 0
 *   number is neither 0 to 21 nor 32 nor 64 to 96               refusal 2, value 0
 *   number is 32, and the model is an eCAN                      refusal 2, value 0
 *   the model is asleep                                         GSR is 0x0001F040, any other is 0
 *   number is 0 to 21                                           that register word of the image
 *   number is 64 to 95                                          the mask of mailbox number - 64
 *   number is 96                                                the protection
 *   number is 32                                                GSR, made from the image:
 *
 *   bits 16 to 12  the slot's number, 31 where it is empty      bit 6  sleep
 *   bit 10         a mailbox is in the slot                     bit 3  time stamp overflow (TSO)
 *   bit 8          suspend                                      bit 2  bus off (TEC 256)
 *   bit 7          configuration                                bit 1  passive (TEC or REC above 127)
 *   other bits     0                                            bit 0  warning (TEC or REC above 96)
 *
 * The answer is value + 2^32 * refusal; a read that succeeds has refusal 0.
 */
uint64_t frostsorrel_read(const uint8_t *image, size_t image_len, uint32_t number);

/*
 * Runs a whole trace from a fresh CAN-B and writes its listing, the text that `replay` prints.
 *
 * A trace is three sections, one behind the other and nothing after them: mailbox writes; register
 * writes and options; any events. A section is a count in two bytes, low byte first, at most 1,000,
 * and so many events of 16 bytes. The operation byte alone decides whether an event may stand there.
 *
 * text_len is 39,033 or more: the listing stands at the front of the text, no 0 behind it; every other
 * byte stays, and the answer is how many bytes the listing has. Of a trace it is the line
 * `step code mailbox count`, a line of four numbers for each event, refused ones too, and `end` with
 * how many they were; of any other bytes it is the one line `trace refused 8`. Each ends in a line feed.
 *
 * Any smaller text_len: no byte is written, and the answer is 0.
 */
uint64_t frostsorrel_listing(const uint8_t *trace, size_t trace_len, uint8_t *text, size_t text_len);

/*
 * A trace that arrives in parts: a stream. It is opened, fed the bytes of the trace in parts of any length,
 * and closed. Each call writes the lines that are known by then. However the trace is cut, the lines one
 * behind the other, the last image and the last refusal are the same; of a well-formed trace the lines are
 * what frostsorrel_listing writes.
 *
 * A stream is two things of the caller's: an image of 776 bytes, and a state of 32. It keeps no copy of the
 * trace. Opening makes both, whatever they held, the image that of a fresh CAN-B; a new opening starts over.
 *
 *   frostsorrel_stream_open    writes `step code mailbox count`
 *   frostsorrel_stream_feed    feeds each event to the image as its 16th byte comes, and writes its line,
 *                              refused or not; and `trace refused 8` if the part has the fault
 *   frostsorrel_stream_close   writes `end` and how many events there were; or, where the trace is too short,
 *                              `trace refused 8`
 *
 * Each line ends in a line feed. The fault is the byte with which a file stops being the front of a
 * well-formed trace: the high byte of a count above 1,000; the first byte of an event whose operation may not
 * stand in its section (1 in the first, 0 and 9 in the second, any in the third); the first byte behind the
 * third section. The image stays as the events before it have left it, and no byte behind it is looked at.
 * After a fault, and after a closing, the stream is over.
 *
 * The first line that applies decides:
 *
 *   image_len is not 776, or state_len is not 32                          refusal 1
 *   feeding, closing: the stream is over                                  refusal 8, 0 bytes
 *   feeding, closing: no call leaves such a state                         refusal 1
 *   what this call writes is longer than text_len                         refusal 9
 *   this call has the fault, or closes a trace that is too short          refusal 8
 *   else                                                                  refusal 0
 *
 * An answer has the refusal, mailbox 32, and in the count how many bytes were written to the front of `text`;
 * every byte of `text` behind them stays. The first four write nothing, and change neither image nor state: a
 * call that got 9 can be made again with a larger `text`. Where none of them applies, a part of length 0
 * answers refusal 0, writes nothing and changes nothing, and a closing changes no byte of the image. The image
 * need not be good: where it is not, the calls go on, and every line says 1. Image, state, `part` and `text`
 * may not overlap.
 *
 * Room that never gets a 9: 24 bytes for an opening, part_len + 31 for a feeding (no feeding needs more than
 * 39,016), 16 for a closing. With that room a feeding goes over the part once, and so it does with less where
 * the part has at most 65 bytes. A longer one it first tries on copies of image and state, to know how long its
 * text is. A feeding takes less than 1,500 bytes of the stack in any case, an opening or a closing less than
 * 200 (`make bench` prints what it saw).
 *
 * The state, should you want to look: four words, low byte first (frostsorrel_stream_word), and 16 bytes.
 *
 *   FROSTSORREL_STREAM_SECTION    the section that is being read, 1 to 3; behind the third 4, where a closing
 *                                 answers refusal 0; 5 where the stream is over
 *   FROSTSORREL_STREAM_LEFT       how many events of that section are not complete; 0 while its count is read,
 *                                 in 4 and in 5
 *   FROSTSORREL_STREAM_STEPS      how many events are complete; 0 in 5
 *   FROSTSORREL_STREAM_GATHERED   how many bytes are there of a count or an event that is not complete; 0 in 5
 *   then                          those bytes, the others 0
 *
 * With its last event, or with a count of 0, a section is left at once, for the next one's count or for 4.
 *
 * No call leaves a state in another section than 1 to 5; with more events, complete or not, than 1,000 for
 * each section whose count is known; with more than 1,000 left; with an event's bytes whose first may not
 * stand in that section; with as many bytes as complete the count (2) or the event (16), or more; in 4 with
 * any event left or any byte there; or with another byte than 0 behind those that are there. In 5 the rest
 * does not matter: the stream is over. The state never hangs on the image. So, to find the byte that has the
 * fault, keep the state from before the part, and feed the part again byte by byte.
 */
enum {
    FROSTSORREL_STREAM_SECTION = 0,
    FROSTSORREL_STREAM_LEFT = 1,
    FROSTSORREL_STREAM_STEPS = 2,
    FROSTSORREL_STREAM_GATHERED = 3
};
enum { FROSTSORREL_STREAM_BEHIND = 4, FROSTSORREL_STREAM_OVER = 5 }; /* in the place of a section */

uint64_t frostsorrel_stream_open(uint8_t *image, size_t image_len, uint8_t *state, size_t state_len,
                                 uint8_t *text, size_t text_len);
uint64_t frostsorrel_stream_feed(uint8_t *image, size_t image_len, uint8_t *state, size_t state_len,
                                 const uint8_t *part, size_t part_len, uint8_t *text, size_t text_len);
uint64_t frostsorrel_stream_close(uint8_t *image, size_t image_len, uint8_t *state, size_t state_len,
                                  uint8_t *text, size_t text_len);

/*
 * Compares two images and lists every word in which they differ.
 *
 * The words of an image are numbered from its first byte: 4 * mailbox + word for those of a mailbox,
 * 128 + number for the register words, 160 + mailbox for the masks, 192 for the protection and 193 for the
 * profile. The list has one entry for each word that differs and none for an equal one, in rising order. An
 * entry is 12 bytes: the word's number, what the first image has there, what the second has, each in four
 * bytes, low byte first. The second contents, put in their places in the first image, make the second. The two
 * may be of different profiles.
 *
 * The first line that applies decides:
 *
 *   first or second is not a good image (a length other than 776 included)    refusal 1
 *   12 bytes for each entry are more than list_len                            refusal 9
 *
 * A refused call writes no byte and answers mailbox 32, count 0. Any other puts the list at the front
 * of `list`, where every byte past it stays, and answers refusal 0, mailbox 32, and in the count how
 * many entries there are. Two equal images have an empty list, which fits a list_len of 0; 2,328 bytes
 * are room for any. The images are only read, and may be the same one; `list` may not overlap either.
 */
uint64_t frostsorrel_compare(const uint8_t *first, size_t first_len, const uint8_t *second,
                             size_t second_len, uint8_t *list, size_t list_len);

/*
 * Explains why a frame lands where it does: of each mailbox, in the order of the search, why it is not the
 * one, up to the one that is. The image is only read: it is the model before the frame.
 *
 * The event is a frame as frostsorrel_step takes it. A line is 8 bytes: mailbox, reason, bit, five zeros.
 * A frame that is heard (normal mode, TEC below 256) gets a line for mailbox 0, 1 and so on, in an eCAN for
 * 31, 30 and so on, disabled ones too, up to and with the first that gets reason 5, where the search of a step
 * stops; where none does, for all 32. The reason of a line is the first of these that holds of its mailbox:
 *
 *   1  it is not enabled in MC
 *   2  it transmits, and the frame is a data frame
 *   3  IDE differs
 *   4  a bit of the identifier differs; `bit` is the highest such, by its number in word 0
 *   7  in an eCAN: it receives, its RMP is set, and its bit of the protection; the frame is passed over
 *   5  none of these: it matched
 *
 * What is compared goes by the frame: bits 28 to 18 of the identifier if it is standard, 28 to 0 if it is
 * extended. A mailbox whose word 0 has GAME does not differ where GAM (LAM for mailbox 31), in an eCAN its own
 * mask, has a 1: bits 28 to 0 of the mask free the same bits of the identifier, bit 31 frees IDE. Matched is
 * also a transmit mailbox with RFH 0, which ends the search though a step then answers mailbox 32. The lines
 * with reasons 3, 4, 5 and 7 are as many as the count of a step that takes the frame. But for reason 4, and 6
 * below, `bit` is 0.
 *
 * Outside normal mode and in bus off no mailbox is asked. There is one line then: mailbox 32, reason 6, and
 * in the place of the bit the mode, 1 to 3, or 4 in bus off; asleep with WUBA too, where a step wakes the
 * model. A mailbox in the slot does not matter: there is no refusal 5, and the frame is explained as if the
 * slot were empty.
 *
 * The first of these that applies decides:
 *
 *   the image is not good (a length other than 776 included)                        refusal 1
 *   event_len is not 16, or the operation is not 2                                  refusal 2
 *   an unused byte of the event is not 0, or its DLC or value is not allowed: all
 *   for which a step answers 4                                                      refusal 4
 *   8 bytes for each line are more than list_len                                    refusal 9
 *
 * A refused call writes no byte and answers mailbox 32, count 0. Any other puts the lines at the front of
 * `list`, where every byte past them stays, and answers refusal 0, mailbox 32, and in the count how many
 * lines there are. 256 bytes are room for any explanation. `list` may overlap neither image nor event.
 */
uint64_t frostsorrel_explain(const uint8_t *image, size_t image_len, const uint8_t *event, size_t event_len,
                             uint8_t *list, size_t list_len);

/* ---- identifiers: the number that people write, and word 0 of a mailbox or the value of a frame */

/* A standard identifier, 0 to 0x7FF, in its place. Bits above those are dropped. */
static inline uint32_t frostsorrel_standard(uint32_t identifier)
{
    return (identifier & 0x7FFu) << 18;
}

/* An extended identifier, 0 to 0x1FFFFFFF, in its place, with IDE. Bits above those are dropped. */
static inline uint32_t frostsorrel_extended(uint32_t identifier)
{
    return FROSTSORREL_IDE | (identifier & FROSTSORREL_IDENTIFIER_BITS);
}

/* And back: 11 bits where IDE is 0, else 29. */
static inline uint32_t frostsorrel_identifier(uint32_t word)
{
    uint32_t identifier = word & FROSTSORREL_IDENTIFIER_BITS;

    return word & FROSTSORREL_IDE ? identifier : identifier >> 18;
}

/* ---- events: each of these fills 16 bytes and answers them, for a call of frostsorrel_step or _explain */

/*
 * Any event. Its data bytes become 0: what a data frame carries is put into event[8] and on
 * afterwards. What the operation does not use is given as 0.
 */
static inline uint8_t *frostsorrel_event(uint8_t *event, uint8_t operation, uint8_t target, uint8_t word,
                                         uint32_t value)
{
    int i;

    event[0] = operation;
    event[1] = target;
    event[2] = word;
    event[3] = 0;
    for (i = 0; i < 4; i++)
        event[4 + i] = (uint8_t)(value >> 8 * i);
    for (i = 8; i < FROSTSORREL_EVENT_BYTES; i++)
        event[i] = 0;
    return event;
}

static inline uint8_t *frostsorrel_write_register(uint8_t *event, uint8_t number, uint32_t value)
{
    return frostsorrel_event(event, FROSTSORREL_WRITE_REGISTER, number, 0, value);
}

static inline uint8_t *frostsorrel_write_mailbox(uint8_t *event, uint8_t mailbox, uint8_t word,
                                                 uint32_t value)
{
    return frostsorrel_event(event, FROSTSORREL_WRITE_MAILBOX, mailbox, word, value);
}

/*
 * A data frame with the first dlc bytes of data, or the first eight where dlc is above 8. Above 15 it is
 * built all the same, and a step refuses it. The identifier is frostsorrel_standard(..) or
 * frostsorrel_extended(..).
 */
static inline uint8_t *frostsorrel_data_frame(uint8_t *event, uint32_t identifier, uint8_t dlc,
                                              const uint8_t *data)
{
    int i;

    frostsorrel_event(event, FROSTSORREL_FRAME, dlc, 0, identifier);
    for (i = 0; i < FROSTSORREL_MOST_DATA_BYTES && i < dlc; i++)
        event[8 + i] = data[i];
    return event;
}

static inline uint8_t *frostsorrel_remote_frame(uint8_t *event, uint32_t identifier, uint8_t dlc)
{
    return frostsorrel_event(event, FROSTSORREL_FRAME, dlc, 0, identifier | FROSTSORREL_FRAME_RTR);
}

/* How the sending went: FROSTSORREL_SENT to FROSTSORREL_UNACKNOWLEDGED. */
static inline uint8_t *frostsorrel_outcome(uint8_t *event, uint8_t how)
{
    return frostsorrel_event(event, FROSTSORREL_OUTCOME, how, 0, 0);
}

/* ---- words: four bytes, low byte first */

static inline uint32_t frostsorrel_word(const uint8_t *bytes)
{
    return (uint32_t)bytes[0] | (uint32_t)bytes[1] << 8 | (uint32_t)bytes[2] << 16 |
           (uint32_t)bytes[3] << 24;
}

/* The value of an event. */
static inline uint32_t frostsorrel_event_value(const uint8_t *event)
{
    return frostsorrel_word(event + 4);
}

/* Word 0 to 3 of mailbox 0 to 31, as it stands in the image; sleep hides nothing here. */
static inline uint32_t frostsorrel_mailbox_word(const uint8_t *image, uint32_t mailbox, uint32_t word)
{
    return frostsorrel_word(image + 16 * mailbox + 4 * word);
}

/* Data byte 0 to 7 of mailbox 0 to 31. */
static inline uint8_t frostsorrel_mailbox_data(const uint8_t *image, uint32_t mailbox, uint32_t byte)
{
    return image[16 * mailbox + 8 + byte];
}

/*
 * How many data bytes the frame of a mailbox has, by its word 1: none where RTR is set, else as many as the
 * DLC says, and at most eight. What else stands in the data bytes is no part of it.
 */
static inline uint32_t frostsorrel_data_bytes(uint32_t word_1)
{
    uint32_t dlc = word_1 & FROSTSORREL_DLC_BITS;

    if (word_1 & FROSTSORREL_RTR)
        return 0;
    return dlc < FROSTSORREL_MOST_DATA_BYTES ? dlc : FROSTSORREL_MOST_DATA_BYTES;
}

/*
 * Register word 0 to 31 as it stands in the image, words 22 to 27 too. This is not what the firmware
 * sees asleep, and there is no GSR here: frostsorrel_read has both.
 */
static inline uint32_t frostsorrel_register_word(const uint8_t *image, uint32_t number)
{
    return frostsorrel_word(image + 16 * FROSTSORREL_MAILBOXES + 4 * number);
}

/* The mask of mailbox 0 to 31, the protection and the profile, as they stand in the image. */
static inline uint32_t frostsorrel_mask_word(const uint8_t *image, uint32_t mailbox)
{
    return frostsorrel_word(image + 20 * FROSTSORREL_MAILBOXES + 4 * mailbox);
}

static inline uint32_t frostsorrel_protection_word(const uint8_t *image)
{
    return frostsorrel_word(image + FROSTSORREL_IMAGE_BYTES - 8);
}

static inline uint32_t frostsorrel_profile_word(const uint8_t *image)
{
    return frostsorrel_word(image + FROSTSORREL_IMAGE_BYTES - 4);
}

/* Word 0 to 3 of the state of a stream. */
static inline uint32_t frostsorrel_stream_word(const uint8_t *state, uint32_t word)
{
    return frostsorrel_word(state + 4 * word);
}

/* ---- lists of differences: entry 0 and on, as many as the answer counts */

/*
 * The number of the word: 4 * mailbox + word, 128 + the number of a register word, 160 + the mailbox of a mask,
 * 192 for the protection, 193 for the profile.
 */
static inline uint32_t frostsorrel_entry_number(const uint8_t *list, size_t entry)
{
    return frostsorrel_word(list + FROSTSORREL_ENTRY_BYTES * entry);
}

/* What the first image has there, and what the second. */
static inline uint32_t frostsorrel_entry_first(const uint8_t *list, size_t entry)
{
    return frostsorrel_word(list + FROSTSORREL_ENTRY_BYTES * entry + 4);
}

static inline uint32_t frostsorrel_entry_second(const uint8_t *list, size_t entry)
{
    return frostsorrel_word(list + FROSTSORREL_ENTRY_BYTES * entry + 8);
}

/* ---- explanations: line 0 and on, as many as the answer counts */

/* The mailbox, or 32 where the frame is not heard. */
static inline uint32_t frostsorrel_line_mailbox(const uint8_t *list, size_t line)
{
    return list[FROSTSORREL_LINE_BYTES * line];
}

/* FROSTSORREL_DISABLED to FROSTSORREL_PROTECTED. */
static inline uint32_t frostsorrel_line_reason(const uint8_t *list, size_t line)
{
    return list[FROSTSORREL_LINE_BYTES * line + 1];
}

/*
 * With FROSTSORREL_BIT_DIFFERS the bit's number in word 0; with FROSTSORREL_NOT_HEARD the mode, or
 * FROSTSORREL_IN_BUS_OFF; else 0.
 */
static inline uint32_t frostsorrel_line_bit(const uint8_t *list, size_t line)
{
    return list[FROSTSORREL_LINE_BYTES * line + 2];
}

/* ---- answers */

/*
 * The parts of what fresh, step, compare, explain and the calls of a stream answer:
 * refusal + 256 * mailbox + 65536 * count.
 */
static inline uint32_t frostsorrel_answer_refusal(uint64_t answer)
{
    return (uint32_t)(answer & 0xFF);
}

static inline uint32_t frostsorrel_answer_mailbox(uint64_t answer)
{
    return (uint32_t)(answer >> 8 & 0xFF);
}

static inline uint64_t frostsorrel_answer_count(uint64_t answer)
{
    return answer >> 16;
}

/* The parts of what frostsorrel_read answers. */
static inline uint32_t frostsorrel_read_value(uint64_t answer)
{
    return (uint32_t)(answer & 0xFFFFFFFF);
}

static inline uint32_t frostsorrel_read_refusal(uint64_t answer)
{
    return (uint32_t)(answer >> 32);
}

/* ---- names, for messages; any number gets one */

static inline const char *frostsorrel_name_of(const char *const *names, size_t count, uint32_t number)
{
    return number < count ? names[number] : "no name";
}

/*
 * A register, and the other words of the block: "MC" to "REC", "mode" to "TSO", "word 28" on; "GSR"; from 64 on
 * "MASK0" to "MASK31" and "PROTECTION".
 */
static inline const char *frostsorrel_register_name(uint32_t number)
{
    static const char *const own[] = {
        "MASK0", "MASK1", "MASK2", "MASK3", "MASK4", "MASK5", "MASK6", "MASK7", "MASK8", "MASK9",
        "MASK10", "MASK11", "MASK12", "MASK13", "MASK14", "MASK15", "MASK16", "MASK17", "MASK18",
        "MASK19", "MASK20", "MASK21", "MASK22", "MASK23", "MASK24", "MASK25", "MASK26", "MASK27",
        "MASK28", "MASK29", "MASK30", "MASK31", "PROTECTION"};
    static const char *const names[] = {
        "MC", "MD", "TRS", "TRR", "TA", "AA", "RMP", "RML", "LAM", "GAM", "RFP", "CDR", "MBTIF",
        "MBRIF", "MBIM", "GIF", "GIM", "BCR1", "BCR2", "TSC", "TEC", "REC", "mode", "waiting mode",
        "slot", "recovery count", "options", "TSO", "word 28", "word 29", "word 30", "word 31", "GSR"};

    if (number >= FROSTSORREL_MASK_0)
        return frostsorrel_name_of(own, sizeof own / sizeof own[0], number - FROSTSORREL_MASK_0);
    return frostsorrel_name_of(names, sizeof names / sizeof names[0], number);
}

/* A bit of GIF, 0 to 7, as the manual calls it. */
static inline const char *frostsorrel_gif_name(uint32_t bit)
{
    static const char *const names[] = {"WLIF",   "EPIF",  "BOIF", "TSOIF",
                                        "TRMABF", "RMLIF", "WUIF", "RFPF"};

    return frostsorrel_name_of(names, sizeof names / sizeof names[0], bit);
}

static inline const char *frostsorrel_operation_name(uint32_t operation)
{
    static const char *const names[] = {
        "register write", "mailbox write", "frame", "start", "outcome", "receive error",
        "eleven recessive bits", "tick", "mode", "options", "reset"};

    return frostsorrel_name_of(names, sizeof names / sizeof names[0], operation);
}

static inline const char *frostsorrel_outcome_name(uint32_t outcome)
{
    static const char *const names[] = {"sent", "arbitration lost", "error", "no acknowledgement"};

    return frostsorrel_name_of(names, sizeof names / sizeof names[0], outcome);
}

/* A mode, or the waiting mode: 4 is "none". */
static inline const char *frostsorrel_mode_name(uint32_t mode)
{
    static const char *const names[] = {"normal", "configuration", "sleep", "suspend", "none"};

    return frostsorrel_name_of(names, sizeof names / sizeof names[0], mode);
}

static inline const char *frostsorrel_profile_name(uint32_t profile)
{
    static const char *const names[] = {"CAN-B", "eCAN"};

    return frostsorrel_name_of(names, sizeof names / sizeof names[0], profile);
}

/* A reason of an explanation, 1 to 7. */
static inline const char *frostsorrel_reason_name(uint32_t reason)
{
    static const char *const names[] = {"no name",     "disabled", "transmits", "IDE differs",
                                        "bit differs", "matched",  "not heard", "protected"};

    return frostsorrel_name_of(names, sizeof names / sizeof names[0], reason);
}

static inline const char *frostsorrel_refusal_name(uint32_t refusal)
{
    static const char *const names[] = {"accepted", "bad image", "unknown",    "asleep",   "not allowed",
                                        "busy",     "locked",    "slot empty", "bad trace", "no room"};

    return frostsorrel_name_of(names, sizeof names / sizeof names[0], refusal);
}

/* The same as a sentence, without its full stop. */
static inline const char *frostsorrel_refusal_reason(uint32_t refusal)
{
    static const char *const names[] = {
        "the event was taken",
        "the image is not one that the rules allow",
        "there is no such operation, register, mailbox, word or outcome, or it can only be read",
        "registers, mailboxes and options cannot be written while the model sleeps",
        "the value, the DLC or the profile is not allowed, or a byte that the event does not use is not 0",
        "a mailbox is being sent, or waits to be",
        "this cannot be changed in this mode or profile, or while the mailbox is enabled",
        "an outcome came while nothing was being sent",
        "the file is not three sections of events that may stand there",
        "what is to be written does not fit the bytes that it is to stand in"};

    return frostsorrel_name_of(names, sizeof names / sizeof names[0], refusal);
}

#ifdef __cplusplus
}
#endif

#endif
