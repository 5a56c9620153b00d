/* The Plus chip core, for x86-64 Linux. Link libplus.a, which the script `plus` builds, or what `plus install` puts down.
 *
 * The chip's state goes in by value and comes back in the answer; the library keeps nothing between calls. Every call but
 * plus_built, plus_reset, plus_grey, plus_change, plus_take_pack and plus_take_unpack, which can't be refused, has an answer
 * number; plus_answer_text says in words what it means. With a refusal, that is any other than 0, the state and the buffers are as
 * they were and every other number in the answer is 0, but for the number of a bad line or of a bad record; plus_replay, which is
 * given no state, hands back the one after reset then. Any contents of the structs are served, but a bool must be 0 or 1. A host
 * that could be linked with another library than its header's asks plus_fits first.
 *
 * A buffer is a pointer, never NULL, and its length: PLUS_RAM bytes for RAM, PLUS_STORE for the sprite pixel store, PLUS_LINE for
 * a drawn line, PLUS_EXPORT for an export. A text, a take and a list to be placed have any number of bytes, and the length of sound
 * words, of records and of a report's numbers is counted in these. The buffers of one call must not overlap. RAM is written by
 * plus_place alone, and all other calls only read it.
 *
 * Two editors work on one chip: page read, page write and undo take the number of the one that makes them, PLUS_SONG or
 * PLUS_PICTURE. plus_start gives a table of which of them may write what: bit n of its numbers is palette entry (both bytes),
 * sprite (registers and pixels) or channel (start address, prescale and its bits of DCSR) n, and set for the picture editor. While
 * a table holds, PRI, the split and SSCR are the picture editor's, IVR is neither's, and a write to what is not the editor's is
 * refused with PLUS_NOT_YOURS; a DCSR write is served for both, touches the writer's own channels alone, and a DCSR read shows
 * those of the reader and 0 elsewhere. It holds until the next start or reset. While none holds both may write everything, and a
 * host with one editor can take either number, always the same.
 *
 * The page writes that an editor can undo stand in PLUS_PLACES numbers, which a host keeps beside the chip, others for each editor:
 * it lends that editor's, as the last call left them, to each of its page writes and undos of that chip. They need not be set at
 * first, nor after a reset or a start. The song editor's newest is at place editing.song.next - 1 (255 where that is 0), the one
 * before it at the place before, and so on round, as many as editing.song.count says; each is the address written to, times 256,
 * plus the register's contents before. The picture editor's stand so by editing.picture.
 *
 * A slider sends an event for every step of a gesture, and each write is kept by itself: a long gesture fills the places, and takes
 * as many undos to take back. To keep one entry a gesture, take back the last event's write before each further one:
 *
 *     if (!first_event) chip = plus_undo(chip, editor, store, PLUS_STORE, places).chip;
 *     chip = plus_page_write(chip, editor, store, PLUS_STORE, places, address, value).chip;
 *
 * The entry then has the contents from before the gesture, and one undo brings them back. Between two events that editor may make
 * no other page write, since undo would take back that one. DCSR is not kept, so it needs none of this.
 *
 * Sound lists can be placed in RAM, as many as PLUS_LISTS at a time, within an area that plus_area gives once and a reset forgets.
 * Where they are stands in PLUS_LISTS numbers, which a host keeps beside the chip too: it lends them, as the last call left them, to
 * each plus_place and plus_remove of that chip. They need not be set at first, nor after a reset. If bit h of editing.lists.used is
 * set, handle h has a list, and number h says where: from number / 32768 * 2 up to but not at (number % 32768 + 1) * 2.
 *
 * A list that an enabled channel has in use can't be removed: the channel's address lies in it; or it has passes of a loop left,
 * and its mark does, or some word from a mark below its address up to that. Nothing else is kept for a channel: not what it comes
 * to in a later list, nor what it plays outside of the lists, which the next list may be put over, nor anything while it is off.
 *
 * A channel can be muted, by plus_mute alone. It plays on as it would: its LOADs take their cycles and are reported with their low
 * bits, but leave the PSG as it is. No editor sees or sets that, and it is no register of the page. A start, an undo and a write to
 * DCSR leave it, and a reset ends it.
 *
 * A take is a file: a comment of any bytes, records of PLUS_TAKE_RECORD bytes, and a trailer of PLUS_TAKE_TRAILER bytes, which has
 * the record count, the offset of the first record, 4 bytes each, and the letters PLTK. A record has the line number in 4 bytes,
 * the kind in 1, the address in 2 and the value in 1. All numbers stand low byte first. */
#ifndef PLUS_H
#define PLUS_H

#include <stdbool.h>
#include <stddef.h>
#include <stdint.h>

#ifdef __cplusplus
extern "C" {
#endif

/* The version of this header: 10000 times the major number, 100 times the minor one, and the patch. Another patch changes nothing
 * that a caller could see; with another minor or major number a struct may have another layout, the state above all. What each
 * version changes for a caller is in CHANGELOG.md. */
#define PLUS_VERSION 1400
#define PLUS_VERSION_TEXT "0.14.0"

enum { PLUS_RAM = 65536, PLUS_STORE = 4096, PLUS_LINE = 640, PLUS_EXPORT = 477, PLUS_PLACES = 256 };

/* How many lists an area has handles for: 0 to 63. */
enum { PLUS_LISTS = 64 };

/* The most bytes that a word's line of text has, its LF with them: `LOOP+INT+STOP`. */
enum { PLUS_LONGEST_LINE = 14 };

/* Bytes of a take: a record, and the trailer. */
enum { PLUS_TAKE_RECORD = 8, PLUS_TAKE_TRAILER = 12 };

/* How many counts plus_replay keeps: one for each number up to 23. */
enum { PLUS_COUNTS = 24 };

/* The numbers a call can answer. The lowest that applies is given. */
enum {
    PLUS_DONE = 0,              /* done */
    PLUS_WRONG_LENGTH = 1,      /* a buffer has another length than its call wants, or fewer words than are in use */
    PLUS_NOT_MAPPED = 2,        /* the page is not mapped, or the address is not in it (4000h to 7FFFh) */
    PLUS_NOTHING_THERE = 3,     /* no register there that could be written, or no record or channel with that number */
    PLUS_MODE_THREE = 4,        /* a line in screen mode 3 can't be drawn, and is not stepped either */
    PLUS_NO_INTERRUPT = 5,      /* nothing to acknowledge */
    PLUS_NO_STOP = 6,           /* the list has no STOP up to the end of RAM */
    PLUS_NOT_LISTING = 7,       /* a line of the text is no word's */
    PLUS_TOO_SMALL = 8,         /* the buffer has no room for all of the text, or of the words */
    PLUS_CONVERTER_THERE = 9,   /* an analogue converter (6808h to 680Fh), which can only be read */
    PLUS_NOTHING_TO_UNDO = 10,  /* no page write is left that could be undone */
    PLUS_NO_TRAILER = 11,       /* the file is shorter than a trailer, or has other letters at its end */
    PLUS_NOT_MET = 12,          /* the records, by the trailer's offset and count, don't end where the trailer begins */
    PLUS_BAD_RECORD = 13,       /* a record is bad */
    PLUS_NO_ROOM = 14,          /* the buffer has no room for the take, or its count or offset has no room in 4 bytes */
    PLUS_NOT_YOURS = 15,        /* the register is not this editor's; no other number applies where this one does */
    PLUS_NO_ROOM_FOR_STOP = 16, /* no word in use has STOP, and the buffer has no room for one after them */
    PLUS_REPORT_TOO_SMALL = 17, /* the report has no room for all changes */
    PLUS_WRONG_AREA = 18,       /* bounds that no area has, an area that was given or is yet to be, or a length that no list has */
    PLUS_ALL_PLACED = 19,       /* every handle has a list */
    PLUS_NO_GAP = 20,           /* no gap of the area is as long as the list */
    PLUS_NO_HANDLE = 21,        /* no list has this handle */
    PLUS_LIST_IN_USE = 22       /* an enabled channel has the list in use */
};

/* What a channel did on a line. */
enum {
    PLUS_SAT_OUT = 0,
    PLUS_LOAD = 1, /* also of a muted channel */
    PLUS_PAUSE = 2,
    PLUS_REPEAT = 3,
    PLUS_CONTROL = 4,
    PLUS_NOTHING = 5 /* a word that does nothing */
};

/* What the processor does at the 8255 while a channel has its turn. It counts where the channel executes a LOAD, and nowhere else.
 * Any number above 2 is a PSG register write too. */
enum {
    PLUS_OFF = 0,      /* it is off the 8255 */
    PLUS_ON = 1,       /* it is on it: the LOAD takes a cycle more */
    PLUS_PSG_WRITE = 2 /* it writes a PSG register there: the LOAD takes two more */
};

/* Who makes a page read, a page write or an undo. Any number above 1 is the picture editor too. */
enum { PLUS_SONG = 0, PLUS_PICTURE = 1 };

/* The kind of a record: which call it is. The page writes and a mute alone have an address; acknowledge, undos and start have no
 * value. */
enum {
    PLUS_TAKE_WRITE_BC = 1,
    PLUS_TAKE_WRITE_BD = 2,
    PLUS_TAKE_WRITE_7F = 3,
    PLUS_TAKE_PAGE_WRITE = 4, /* the song editor's */
    PLUS_TAKE_ACKNOWLEDGE = 5,
    PLUS_TAKE_UNDO = 6,          /* the song editor's */
    PLUS_TAKE_PICTURE_WRITE = 7, /* the picture editor's page write */
    PLUS_TAKE_PICTURE_UNDO = 8,  /* the picture editor's undo */
    PLUS_TAKE_START = 9,         /* with the one table that plus_replay is lent */
    PLUS_TAKE_MUTE = 10          /* its address is the channel, its value 1 for on and 0 for off */
};

/* Who may write what: bit n is palette entry, sprite or channel n, and set for the picture editor. Every number is a table; of the
 * channels the low 3 bits are kept. */
typedef struct {
    uint32_t palette;
    uint16_t sprites;
    uint8_t channels;
} PlusTable;

/* The state. */

typedef struct {
    bool unlocked;
    uint8_t stage; /* how much of the unlock sequence the last bytes are, 0 to 16 */
} PlusLock;

typedef struct {
    uint8_t mode;
    bool mapped;
} PlusGate;

typedef struct {
    uint8_t r1, r4, r5, r6, r9, r12, r13;
} PlusRegisters;

typedef struct {
    uint8_t vc, rc;
    bool adjust;
    bool held;        /* a captured split address waits in `split` */
    uint16_t address; /* the current line's screen address */
    uint16_t split;
} PlusCounters;

typedef struct {
    uint8_t selected;
    PlusRegisters registers;
    PlusCounters counters;
} PlusCrtc;

typedef struct {
    uint8_t pri, split_line, split_high, split_low, sscr;
} PlusVideo;

typedef struct {
    int16_t x, y;
    uint8_t magnification; /* bits 3-2 X, 1-0 Y */
} PlusSprite;

typedef struct {
    bool enabled, interrupt;
    uint8_t prescale;
    uint8_t count; /* lines counted towards the next fall of the pause */
    uint16_t address;
    uint16_t pause;
    uint16_t counter; /* passes that LOOP has left */
    uint16_t mark;    /* where LOOP goes back to */
    bool muted;       /* its LOADs leave the PSG; set by plus_mute alone */
} PlusChannel;

typedef struct {
    PlusChannel channels[3];
    uint8_t psg[16];
} PlusSound;

typedef struct {
    bool raster;      /* a raster interrupt waits */
    bool last_raster; /* the last acknowledge was raster */
    uint8_t ivr;
} PlusInterrupts;

typedef struct {
    uint8_t next;   /* the place that the next page write goes to */
    uint16_t count; /* how many can be undone, 0 to PLUS_PLACES */
} PlusUndo;

typedef struct {
    bool held; /* a table holds; if not, the rest is 0 */
    uint8_t channels;
    uint16_t sprites;
    uint32_t palette;
} PlusHeld;

typedef struct {
    uint64_t used;       /* bit h is set if handle h has a list */
    uint16_t from, upto; /* how many words lie below the lower bound and below the higher one; both 0: there is no area */
} PlusArea;

typedef struct {
    PlusHeld table;
    PlusUndo song, picture; /* each editor's record */
    PlusArea lists;
} PlusEditing;

typedef struct {
    PlusLock lock;
    PlusGate gate;
    PlusCrtc crtc;
    PlusVideo video;
    PlusInterrupts interrupts;
    PlusSprite sprites[16];
    uint8_t palette[64]; /* two bytes an entry, low then high */
    PlusSound sound;
    PlusEditing editing;
} PlusChip;

/* The answers. */

typedef struct {
    PlusChip chip;
    uint8_t answer;
} PlusAnswered;

typedef struct {
    PlusChip chip;
    uint8_t answer;
    uint8_t vector;
} PlusAcknowledged;

typedef struct {
    uint8_t answer;
    uint8_t byte;
} PlusByteRead;

typedef struct {
    PlusChip chip;
    uint8_t answer;
    uint8_t cycles;   /* of the whole line, its dead cycle with them: at most 34 */
    uint8_t kinds[3]; /* for each channel PLUS_SAT_OUT to PLUS_NOTHING */
    uint16_t lows[3]; /* the low 12 bits of its word, 0 if it sat out */
} PlusStepped;

typedef struct {
    PlusChip chip;
    uint8_t answer;
    uint32_t address; /* where the list stands now */
    uint32_t handle;  /* by which it is removed, 0 to PLUS_LISTS - 1 */
} PlusPlaced;

typedef struct {
    uint8_t answer;
    uint64_t lines;
    uint64_t cycles;         /* the channel's own cycles, if the processor disturbs no LOAD: it never takes fewer */
    uint64_t most;           /* the same, if a PSG register write meets every LOAD: it never takes more */
    uint32_t offset, length; /* the list, its STOP with it: so many bytes of RAM from offset on */
} PlusLength;

typedef struct {
    uint8_t answer;
    size_t size; /* bytes of text written */
} PlusPrinted;

typedef struct {
    uint8_t answer;
    size_t count; /* words written */
    size_t line;  /* with 7 the first bad line, from 1 */
} PlusReadBack;

typedef struct {
    uint8_t answer;
    size_t used;    /* words in use afterwards: one more than before where a STOP was added */
    size_t changes; /* how many changes the report has */
} PlusMended;

/* A word that mending has changed, or the STOP that it has added. */
typedef struct {
    uint64_t place;    /* where in the buffer, from 0 */
    uint16_t old_word; /* what stood there before */
    uint16_t new_word; /* what stands there now */
} PlusChange;

/* One call of a take. It is bad if its kind is none of the above, if its kind has no address or no value and that is not 0, if it
 * is a mute with another value than 0 and 1, or if its line number is below that of the record before it. A mute of a channel that
 * there is not is no bad record: playing it counts it at 3. */
typedef struct {
    uint32_t line; /* lines from the reset up to the call: of plus_line the served calls */
    uint8_t kind;  /* PLUS_TAKE_WRITE_BC to PLUS_TAKE_MUTE */
    uint16_t address;
    uint8_t value;
} PlusRecord;

typedef struct {
    uint8_t answer;
    size_t size; /* bytes of the file written */
    size_t bad;  /* with 13 the first bad record, from 1 */
} PlusWritten;

typedef struct {
    uint8_t answer;
    size_t bad;    /* with 13 the first bad record, from 1 */
    size_t count;  /* records */
    size_t offset; /* where the first of them stands: the comment is all of the file before it */
} PlusOpened;

typedef struct {
    uint8_t answer;
    PlusRecord record; /* all 0 where it is refused */
} PlusRecordRead;

typedef struct {
    PlusChip chip; /* after the last record */
    uint8_t answer;
    size_t bad;                   /* with 13 the first bad record, from 1 */
    uint32_t lines;               /* lines stepped: the last record's line number */
    uint32_t counts[PLUS_COUNTS]; /* how often each number refused a record's call; nothing is counted at 0 */
} PlusReplayed;

typedef struct {
    uint32_t version; /* PLUS_VERSION of the library's own header */
    uint32_t state;   /* bytes of a PlusChip, as the library has it */
} PlusBuilt;

/* The calls. */

/* What the library was built with. No answer number. */
PlusBuilt plus_built(void);

/* The chip after reset, with no table, nothing to undo, no area for lists and no channel muted. No answer number: nothing can
 * refuse it. */
PlusChip plus_reset(void);

/* A byte to port BCxx: selects a 6845 register and feeds the lock. Answers 0. */
PlusAnswered plus_write_bc(PlusChip chip, uint8_t byte);

/* A 6845 data write to the register selected last. Answers 0 or 3. */
PlusAnswered plus_write_bd(PlusChip chip, uint8_t byte);

/* A byte to port 7Fxx: maps the page, or sets the mode. Answers 0 or 3. */
PlusAnswered plus_write_7f(PlusChip chip, uint8_t byte);

/* Gives the table of which editor may write what, in the place of any before it. Both editors' records are empty then, and all else
 * stays. Answers 0. */
PlusAnswered plus_start(PlusChip chip, PlusTable table);

/* An editor reads the register page; `bus` comes back where nothing can be read. No read is refused for its editor. Answers 0, 1 or
 * 2. */
PlusByteRead plus_page_read(PlusChip chip, uint8_t editor, const uint8_t *store, size_t store_length, uint16_t address,
                            uint8_t bus);

/* An editor writes the register page; a pixel goes into the store. A write that is served, but to DCSR, can be undone by that
 * editor; of more than PLUS_PLACES the oldest can't be any more. The places are the editor's own. Answers 0, 1, 2, 15, 9 or 3,
 * tested in this order. */
PlusAnswered plus_page_write(PlusChip chip, uint8_t editor, uint8_t *store, size_t store_length, uint32_t places[PLUS_PLACES],
                             uint16_t address, uint8_t byte);

/* Takes back the editor's newest page write that is left: its register, or the pixel in the store, gets the contents it had before.
 * Served whether or not the page is mapped. The places are the editor's own. Answers 0, 1 or 10. */
PlusAnswered plus_undo(PlusChip chip, uint8_t editor, uint8_t *store, size_t store_length, const uint32_t places[PLUS_PLACES]);

/* Exports the registers of the page: for each of 159, by rising address, its address low, its address high and its contents. The
 * pixels, DCSR and the mirrors of magnification are not among them. Answers 0 or 1. */
uint8_t plus_export(PlusChip chip, uint8_t *out, size_t out_length);

/* Serves the waiting interrupt that comes first and gives its vector. Answers 0 or 5. */
PlusAcknowledged plus_acknowledge(PlusChip chip);

/* Mutes a channel, or ends that. Nothing else of the chip changes. All 16 bits of the channel count. Answers 0, or 3 for a channel
 * above 2. */
PlusAnswered plus_mute(PlusChip chip, uint16_t channel, bool on);

/* A line: it is drawn, and then the chip stepped. Each of the PLUS_LINE bytes becomes the number of a palette entry, by the state
 * before the call; the state that comes back is the next line's, after sound, raster compare, split compare and counters. The last
 * three numbers say what the processor does at the 8255, for channels 0, 1 and 2; they change the line's cycles and nothing else.
 * Refused, it does neither, and no line has passed. Answers 0, 1 or 4. */
PlusStepped plus_line(PlusChip chip, const uint8_t *ram, size_t ram_length, const uint8_t *store, size_t store_length,
                      uint8_t *line, size_t line_length, uint8_t first, uint8_t second, uint8_t third);

/* Gives the area for lists: from `from` up to but not at `upto`, both even, the second above the first and at most PLUS_RAM. It is
 * given once, and a reset forgets it and its lists; one that was refused can be given again. Answers 0 or 18. */
PlusAnswered plus_area(PlusChip chip, uint32_t from, uint32_t upto);

/* Places a list: its bytes are copied into RAM, to the lowest even address at which all of it is within the area and between the
 * lists there, and no other byte of RAM changes. Its handle is the lowest that is free. The list must not lie in the lent RAM.
 * Answers 0; 1 for RAM of another length; 18 with no area, or for a length that is 0, odd or above the area's; 19 or 20; tested in
 * this order. */
PlusPlaced plus_place(PlusChip chip, uint32_t places[PLUS_LISTS], uint8_t *ram, size_t ram_length, const uint8_t *list,
                      size_t list_length);

/* Removes the list of a handle, which is any number: room and handle are free for the next. The bytes in RAM stay. Answers 0, 18
 * with no area, 21 or 22, tested in this order. */
PlusAnswered plus_remove(PlusChip chip, const uint32_t places[PLUS_LISTS], uint32_t handle);

/* The grey of a palette entry, 0 to 195, from its two bytes. No answer number. */
uint8_t plus_grey(uint8_t low, uint8_t high);

/* The length of the sound list at a start address, before it plays, and the least and the most of its cycles. Answers 0, 1 or 6. */
PlusLength plus_forecast(const uint8_t *ram, size_t ram_length, uint16_t start, uint8_t prescale);

/* Prints sound words as text, a line each, which plus_read reads as the same words. Room for PLUS_LONGEST_LINE bytes a word is
 * always enough; what lies beyond the text stays. Answers 0 or 8. */
PlusPrinted plus_print(const uint16_t *words, size_t words_length, uint8_t *text, size_t text_length);

/* Reads such a text back; what lies beyond the words stays. No other text is read, so that printing the words gives it again. A
 * text has as many words as it has LFs. Answers 0, 7 or 8. */
PlusReadBack plus_read(const uint8_t *text, size_t text_length, uint16_t *words, size_t words_length);

/* Mends an old list, which is the first `used` words of a buffer and may have none: 1000h and words that do nothing become 4000h,
 * and a control word keeps LOOP, INT and STOP (bits 0, 4, 5) and no other bit. If none of these words has STOP, 4020h goes after
 * the last. From a channel with no pause and no loop that is not muted the list plays as it did, up to its first STOP or its end.
 * Every change is reported, by rising places, and the added STOP last: in two numbers, the place, and 65,536 times the old word
 * plus the new one, which plus_change takes apart. A report of 2 * (used + 1) numbers always has the room. Words and numbers beyond
 * stay. Answers 0, 1, 16 or 17, tested in this order. */
PlusMended plus_mend(uint16_t *words, size_t words_length, size_t used, uint64_t *report, size_t report_length);

/* The change of a report with a number, from 0; all 0 where a report of this length has no room for so many. No answer number. */
PlusChange plus_change(const uint64_t *report, size_t report_length, size_t number);

/* A record as one number, in which it is lent to plus_take_write: the number that its PLUS_TAKE_RECORD bytes in a file say. No
 * answer number. */
uint64_t plus_take_pack(PlusRecord record);

/* The record in such a number; every number has one. No answer number. */
PlusRecord plus_take_unpack(uint64_t number);

/* Writes a take: the comment, the records and the trailer. plus_take_open opens it, with the same comment and records. It has
 * comment_length + PLUS_TAKE_RECORD * records_length + PLUS_TAKE_TRAILER bytes; what lies beyond it stays. Answers 0, 13 or 14. */
PlusWritten plus_take_write(const uint8_t *comment, size_t comment_length, const uint64_t *records, size_t records_length,
                            uint8_t *output, size_t output_length);

/* Tests a whole take, and says where its parts are: offset bytes of comment, then count records, then the trailer. Answers 0, 11,
 * 12 or 13. */
PlusOpened plus_take_open(const uint8_t *file, size_t file_length);

/* The record of a take with a number, from 1, whether or not a record is bad. In a file that plus_take_open answers 11 or 12 for it
 * answers that, and then 3 with any other number than 1 to the count. Answers 0, 3, 11 or 12. */
PlusRecordRead plus_take_record(const uint8_t *file, size_t file_length, size_t number);

/* Plays a take from reset, record by record: lines are stepped, with nothing drawn and the processor off the 8255, in any screen
 * mode, until there are as many as the record's line number says, and its call is made. Every start of the take gives this table. A
 * call that is refused is counted and passed over. The whole take is tested before anything is played. The places are then those of
 * the chip it gives, the song editor's and the picture editor's. A take has none of the calls on lists, so that chip has no area.
 * Answers 0, 1, 11, 12 or 13. */
PlusReplayed plus_replay(const uint8_t *ram, size_t ram_length, uint8_t *store, size_t store_length, uint32_t song[PLUS_PLACES],
                         uint32_t picture[PLUS_PLACES], PlusTable table, const uint8_t *file, size_t file_length);

/* In this header alone. */

/* Whether the library is the one that this header is of. A host asks once, before any other call: an older library links without a
 * word, and its structs may have another layout. */
static inline bool plus_fits(void) {
    PlusBuilt built = plus_built();
    return built.version == PLUS_VERSION && built.state == sizeof(PlusChip);
}

/* What an answer number means, in a few words. */
static inline const char *plus_answer_text(uint8_t number) {
    static const char *const texts[] = {
        "done",
        "a buffer has another length than its call wants",
        "the page is not mapped, or the address is not in it",
        "no register there that could be written, or no such record or channel",
        "a line in screen mode 3 can't be drawn",
        "no interrupt is waiting",
        "the list has no STOP up to the end of RAM",
        "a line of the text is no word's",
        "the buffer has no room for all of it",
        "a converter is there, which can only be read",
        "no page write is left that could be undone",
        "the file has no trailer",
        "the records don't end where the trailer begins",
        "a record is bad",
        "there is no room for the take",
        "the register is not this editor's",
        "the list has no STOP, and there is no room for one",
        "the report has no room for all changes",
        "bounds or length are wrong, or an area is there already or not yet",
        "every handle has a list",
        "no gap in the area is long enough",
        "no list has that handle",
        "a channel has the list in use",
    };
    return number < sizeof texts / sizeof texts[0] ? texts[number] : "a number that this version doesn't answer";
}

#ifdef __cplusplus
}
#endif

#endif
