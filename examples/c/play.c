/* Sees that the library is its header's, reads a sound list from text and prints it, forecasts it, then plays it on channel 0 up to its
 * STOP and counts the same numbers: the least cycles with the processor off the 8255, the most with PSG register writes on every line.
 * On the way a slider moves the prescale, and the gesture is undone. The calls before the lines are written as a take, which is opened
 * and played again. A picture editor works beside the song editor, under a table that says what is whose. An old list is mended. In
 * the end lists are placed in an area of RAM, and removed from it, while one of them plays. */
#include <stdio.h>
#include <stdlib.h>
#include <string.h>

#include "plus.h"

static const uint8_t unlock[] = {0x01, 0x00, 0xFF, 0x77, 0xB3, 0x51, 0xA8, 0xD4, 0x62,
                                 0x39, 0x9C, 0x46, 0x2B, 0x15, 0x8A, 0xCD, 0xEE};
static const char song[] = "LOAD 7 38\nPAUSE 2\nSTOP\n";

static uint8_t ram[PLUS_RAM], store[PLUS_STORE], line[PLUS_LINE];
static uint32_t places[2][PLUS_PLACES]; /* the page writes that can be undone, each editor's at its number */
static uint32_t lists[PLUS_LISTS];      /* where lists are placed, each at its handle's number */
static uint64_t records[32];            /* the calls noted, all of them on line 0 */
static size_t noted;

/* Ends the program at a refusal. */
static void served(const char *call, uint8_t answer) {
    if (answer != PLUS_DONE) {
        printf("%s: refused %u: %s\n", call, answer, plus_answer_text(answer));
        exit(1);
    }
}

static void note(uint8_t kind, uint16_t address, uint8_t value) {
    PlusRecord record = {.line = 0, .kind = kind, .address = address, .value = value};
    records[noted++] = plus_take_pack(record);
}

/* Ends the program if the library is not the one that the header is of. */
static void fitting(void) {
    PlusBuilt built = plus_built();
    if (!plus_fits()) {
        printf("the library is version %u with a state of %u bytes, the header %u with %zu\n", built.version, built.state,
               PLUS_VERSION, sizeof(PlusChip));
        exit(1);
    }
    printf("plus %s, a state of %u bytes\n", PLUS_VERSION_TEXT, built.state);
}

static PlusChip poke(PlusChip chip, uint16_t address, uint8_t byte) {
    PlusAnswered written = plus_page_write(chip, PLUS_SONG, store, sizeof store, places[PLUS_SONG], address, byte);
    served("page write", written.answer);
    note(PLUS_TAKE_PAGE_WRITE, address, byte);
    return written.chip;
}

/* The words of a listing into RAM, and their text to standard output. */
static void put_list(const char *listing, uint16_t start) {
    uint16_t words[16];
    PlusReadBack read = plus_read((const uint8_t *)listing, strlen(listing), words, 16);
    served("read", read.answer);
    for (size_t i = 0; i < read.count; i++) {
        ram[start + 2 * i] = words[i] & 0xFF;
        ram[start + 2 * i + 1] = words[i] >> 8;
    }

    uint8_t text[16 * PLUS_LONGEST_LINE];
    PlusPrinted printed = plus_print(words, read.count, text, sizeof text);
    served("print", printed.answer);
    fwrite(text, 1, printed.size, stdout);
}

static PlusChip undo(PlusChip chip) {
    PlusAnswered undone = plus_undo(chip, PLUS_SONG, store, sizeof store, places[PLUS_SONG]);
    served("undo", undone.answer);
    note(PLUS_TAKE_UNDO, 0, 0);
    return undone.chip;
}

/* A gesture of some events on a register, which is one entry for undo: the contents before it. */
static PlusChip slide(PlusChip chip, uint16_t address, uint8_t events) {
    for (uint8_t event = 1; event <= events; event++) {
        if (event > 1)
            chip = undo(chip);
        chip = poke(chip, address, event);
    }
    return chip;
}

/* Plays the list while the processor does one thing on every line. What is drawn on the way is not looked at. */
static void play(const char *what, PlusChip chip, uint8_t access) {
    unsigned long lines = 0, cycles = 0;
    while (chip.sound.channels[0].enabled) {
        PlusStepped stepped = plus_line(chip, ram, sizeof ram, store, sizeof store, line, sizeof line, access, PLUS_OFF, PLUS_OFF);
        served("line", stepped.answer);
        chip = stepped.chip;
        lines += 1;
        cycles += stepped.cycles - 1; /* without the line's dead cycle */
    }
    printf("%s: lines %lu cycles %lu\n", what, lines, cycles);
}

/* The calls noted as a take, what opening it says, and the list played on the chip that it leads to. */
static void put_take(const char *comment) {
    uint8_t file[512];
    PlusWritten written = plus_take_write((const uint8_t *)comment, strlen(comment), records, noted, file, sizeof file);
    served("take", written.answer);

    PlusOpened opened = plus_take_open(file, written.size);
    served("open", opened.answer);
    PlusRecordRead read = plus_take_record(file, written.size, opened.count);
    served("record", read.answer);
    PlusRecord last = read.record;
    printf("take: %zu bytes of %.*s, %zu records, the last %u to %04Xh\n", written.size, (int)opened.offset, (const char *)file,
           opened.count, last.value, last.address);

    PlusTable none = {.palette = 0, .sprites = 0, .channels = 0}; /* the take has no start that would give it */
    PlusReplayed replayed =
        plus_replay(ram, sizeof ram, store, sizeof store, places[PLUS_SONG], places[PLUS_PICTURE], none, file, written.size);
    served("replay", replayed.answer);
    play("replayed", replayed.chip, PLUS_OFF);
}

/* A chip whose channel 0 is about to play the list. */
static PlusChip ready(void) {
    PlusChip chip = plus_reset();
    noted = 0;
    for (size_t i = 0; i < sizeof unlock; i++) {
        chip = plus_write_bc(chip, unlock[i]).chip;
        note(PLUS_TAKE_WRITE_BC, 0, unlock[i]);
    }
    chip = plus_write_7f(chip, 0xB8).chip; /* maps the page in */
    note(PLUS_TAKE_WRITE_7F, 0, 0xB8);
    chip = poke(chip, 0x6C00, 0x00);       /* start address low, high, prescale, enable */
    chip = poke(chip, 0x6C01, 0x80);
    chip = poke(chip, 0x6C02, 0);
    chip = undo(slide(chip, 0x6C02, 3)); /* another prescale would make the pause longer */
    return poke(chip, 0x6C0F, 0x01);
}

/* A picture editor beside the song editor. The table gives it all palette entries and sprites, and the song editor the channels. */
static void put_editors(PlusChip chip) {
    PlusTable table = {.palette = 0xFFFFFFFF, .sprites = 0xFFFF, .channels = 0};
    PlusAnswered started = plus_start(chip, table);
    served("start", started.answer);
    chip = started.chip;
    for (uint8_t editor = PLUS_SONG; editor <= PLUS_PICTURE; editor++) {
        PlusAnswered written = plus_page_write(chip, editor, store, sizeof store, places[editor], 0x6400, 0x70);
        chip = written.chip;
        uint8_t dcsr = plus_page_read(chip, editor, store, sizeof store, 0x6C0F, 0).byte;
        PlusUndo record = editor == PLUS_SONG ? chip.editing.song : chip.editing.picture;
        printf("%s editor: a colour: %s; DCSR %u, %u to undo\n", editor == PLUS_SONG ? "song" : "picture",
               plus_answer_text(written.answer), dcsr, record.count);
    }
}

/* The list played with channel 0 muted and then not: register 7 after it, which a LOAD of the list sets. */
static void put_muted(PlusChip chip) {
    for (int on = 1; on >= 0; on--) {
        PlusAnswered muted = plus_mute(chip, 0, on);
        served("mute", muted.answer);
        chip = muted.chip;
        PlusChip played = chip;
        while (played.sound.channels[0].enabled)
            played = plus_line(played, ram, sizeof ram, store, sizeof store, line, sizeof line, PLUS_OFF, PLUS_OFF, PLUS_OFF).chip;
        printf("%s: register 7 is %02Xh\n", on ? "muted" : "heard", played.sound.psg[7]);
    }
    printf("muted: channel 3: %s\n", plus_answer_text(plus_mute(chip, 3, true).answer));
}

/* An old list mended: 3ABCh and 1000h do nothing, 4F81h is a LOOP with stray bits, and no word is a STOP. There is room for one, and for
 * a change of every word. */
static void put_mended(void) {
    uint16_t words[] = {0x3ABC, 0x0738, 0x1000, 0x4F81, 0};
    uint64_t report[2 * 5];
    PlusMended mended = plus_mend(words, 5, 4, report, 2 * 5);
    served("mend", mended.answer);
    for (size_t i = 0; i < mended.changes; i++) {
        PlusChange change = plus_change(report, 2 * 5, i);
        printf("mended: word %llu was %04X and is %04X\n", (unsigned long long)change.place, change.old_word, change.new_word);
    }
    printf("mended: %zu words\n", mended.used);
}

/* A list placed, or why it is not. */
static PlusChip place(PlusChip chip, const uint8_t *bytes, size_t length) {
    PlusPlaced placed = plus_place(chip, lists, ram, sizeof ram, bytes, length);
    if (placed.answer == PLUS_DONE)
        printf("placed: %zu bytes at %04Xh, handle %u\n", length, placed.address, placed.handle);
    else
        printf("placed: %zu bytes: %s\n", length, plus_answer_text(placed.answer));
    return placed.chip;
}

static PlusChip take_out(PlusChip chip, uint32_t handle) {
    PlusAnswered removed = plus_remove(chip, lists, handle);
    printf("removed: handle %u: %s\n", handle, plus_answer_text(removed.answer));
    return removed.chip;
}

/* Lists in an area of ten words, in which channel 0 plays the first one: LOAD 7 38h, PAUSE 2, STOP. */
static void put_placed(PlusChip chip) {
    static const uint8_t words[] = {0x38, 0x07, 0x02, 0x10, 0x20, 0x40, 0x00, 0x40};
    PlusAnswered given = plus_area(chip, 0x8000, 0x8014);
    served("area", given.answer);
    chip = place(given.chip, words, 6);
    chip = place(chip, words + 4, 4);
    chip = place(chip, words, 6);
    chip = take_out(chip, 0);
    chip = take_out(chip, 1);
    chip = place(chip, words, 8);
    chip = place(chip, words + 4, 2);
    printf("area: %04Xh to %04Xh, handles %llX\n", 2u * chip.editing.lists.from, 2u * chip.editing.lists.upto,
           (unsigned long long)chip.editing.lists.used);
}

int main(void) {
    fitting();
    put_list(song, 0x8000);
    PlusLength told = plus_forecast(ram, sizeof ram, 0x8000, 0);
    served("forecast", told.answer);
    printf("forecast: lines %llu cycles %llu to %llu, %u bytes at %04Xh\n", (unsigned long long)told.lines,
           (unsigned long long)told.cycles, (unsigned long long)told.most, told.length, told.offset);
    play("played", ready(), PLUS_OFF);
    play("played beside PSG writes", ready(), PLUS_PSG_WRITE);
    put_take("a song");
    put_editors(ready());
    put_muted(ready());
    put_mended();
    put_placed(ready());
    return 0;
}
