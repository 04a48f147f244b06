/* Each call of the library that takes memory, with each of its allocations refused in turn, until none is: it answers 5, all that it was
   lent is as before, and made again it answers what it answers with memory. For library.sh, which links it with malloc and realloc wrapped. */
#include "pmach.h"
#include <stdio.h>
#include <stdlib.h>
#include <string.h>

static long armed, taken;
void *__real_malloc(size_t);
void *__real_realloc(void *, size_t);
static int refused(void) { return armed && ++taken == armed; }
void *__wrap_malloc(size_t size) { return refused() ? NULL : __real_malloc(size); }
void *__wrap_realloc(void *block, size_t size) { return refused() ? NULL : __real_realloc(block, size); }

enum { ROOM = 1 << 20 };
static uint8_t image[ROOM], text[ROOM], out[ROOM], before[ROOM];
static size_t image_len, text_len, code_len, needed;
static uint8_t code[ROOM], segment[ROOM];
static size_t segment_len;
static struct pmach h;
static const uint8_t system_text[] = ".SEG 0 SYS\n.PROC 1 0 0 0\n.EXIT\nRNP 0\n.END\n";
static const uint8_t path[] = "own.img", name[] = "HANOI", other[] = "OTHER", typed[] = "go 20\nframes\nquit\n", bare[] = {2, 3, 130, 215, 0, 0};

#define NAME name, 5
#define PATH path, 7
#define OUT out, ROOM, &needed
static uint32_t assemble(void) { return pmach_assemble(text, text_len, true, OUT); }
static uint32_t disassemble(void) { return pmach_disassemble(code, code_len, OUT); }
static uint32_t raw(void) { return pmach_raw((const uint8_t *)"02 03 82 D7", 11, 100, OUT); }
static uint32_t debug(void) { return pmach_debug(image, image_len, NAME, typed, sizeof typed - 1, OUT); }
static uint32_t volume(void) { return pmach_volume(NAME, 280, OUT); }
static uint32_t list(void) { return pmach_list(image, image_len, OUT); }
static uint32_t get(void) { return pmach_get(image, image_len, NAME, OUT); }
static uint32_t get_text(void) { return pmach_get_text(image, image_len, other, 5, OUT); }
static uint32_t put(void) { return pmach_put(image, image_len, (const uint8_t *)"NEW", 3, 5, text, text_len, OUT); }
static uint32_t put_text(void) { return pmach_put_text(image, image_len, (const uint8_t *)"NEW", 3, text, text_len, OUT); }
static uint32_t take(void) { return pmach_remove(image, image_len, NAME, OUT); }
static uint32_t change(void) { return pmach_change(image, image_len, NAME, (const uint8_t *)"NEW", 3, OUT); }
static uint32_t date(void) { return pmach_date(image, image_len, 84, 1, 24, OUT); }
static uint32_t zero(void) { return pmach_zero(image, image_len, NAME, OUT); }
static uint32_t duplicate(void) { return pmach_duplicate(image, image_len, OUT); }
static uint32_t single(void) { return pmach_single(image, image_len, OUT); }
static uint32_t krunch(void) { return pmach_krunch(image, image_len, OUT); }
static uint32_t repair(void) { return pmach_repair(image, image_len, OUT); }
static uint32_t check(void) { return pmach_check(image, image_len, OUT); }
static uint32_t salvage(void) { return pmach_salvage(image, image_len, false, OUT); }
static uint32_t report(void) { return pmach_salvage_report(image, image_len, false, OUT); }
static uint32_t with_system(void) { return pmach_with_system(image, image_len, NAME, segment, segment_len, OUT); }
static uint32_t formats(void) { return pmach_formats(image, image_len, OUT); }
static uint32_t convert(void) { return pmach_convert(image, image_len, name, 0, (const uint8_t *)"dc42-dos", 8, OUT); }
static uint32_t convert_back(void) { return pmach_convert_back(image, image_len, name, 0, image, image_len, OUT); }
static uint32_t form(void) { return pmach_form(image, image_len, OUT); }
static uint32_t find(void) { return pmach_find(PATH, image, image_len, (const uint8_t *)"=", 1, OUT); }
static uint32_t grep(void) { return pmach_grep(PATH, image, image_len, (const uint8_t *)".SEG", 4, OUT); }
static uint32_t info(void) { return pmach_info(PATH, image, image_len, OUT); }
static uint32_t compare(void) { return pmach_compare(image, image_len, image, image_len, OUT); }
static uint32_t entries(void) { return pmach_entries(image, image_len, true, OUT); }
static uint32_t undelete(void) { return pmach_undelete(image, image_len, OUT); }
static uint32_t undelete_blocks(void) { return pmach_undelete_blocks(image, image_len, 14, 2, OUT); }
static uint32_t start(void) { return pmach_new(&h, bare, sizeof bare); }
static uint32_t boot(void) { return pmach_boot(&h, image, image_len, NAME, 0); }
static uint32_t step(void) { return pmach_step(&h); }
static uint32_t run(void) { uint64_t steps; return pmach_run(&h, 100000, &steps); }
static uint32_t key(void) { return pmach_key(&h, 'x'); }
static uint32_t mount(void) { return pmach_mount(&h, 5, image, image_len); }
static uint32_t eject(void) { return pmach_eject(&h, 4); }
static uint32_t faults(void) { return pmach_assemble_faults(code, code_len, OUT); }
static uint32_t symbols(void) { return pmach_assemble_symbols(text, text_len, OUT); }
static uint32_t names(void) { return pmach_disassemble_names(code, code_len, OUT); }
static uint32_t listing(void) { return pmach_disassemble_list(code, code_len, OUT); }
static uint32_t statements(void) { return pmach_disassemble_statements(code, code_len, OUT); }
static uint32_t get_slot(void) { return pmach_get_slot(image, image_len, 1, OUT); }
static uint32_t get_text_slot(void) { return pmach_get_text_slot(image, image_len, 2, OUT); }
static uint32_t remove_slot(void) { return pmach_remove_slot(image, image_len, 1, OUT); }
static uint32_t change_slot(void) { return pmach_change_slot(image, image_len, 1, (const uint8_t *)"NEW", 3, OUT); }
static uint32_t indented(void) { return pmach_disassemble_indented(code, code_len, OUT); }
static uint32_t blocks(void) { return pmach_disassemble_blocks(code, code_len, OUT); }
static uint32_t kind(void) { return pmach_kind(image, image_len, NAME, 5, OUT); }
static uint32_t kind_slot(void) { return pmach_kind_slot(image, image_len, 1, 5, OUT); }
static uint32_t copy(void) { return pmach_copy(image, image_len, NAME, image, image_len, OUT); }
static uint32_t copy_slot(void) { return pmach_copy_slot(image, image_len, 1, (const uint8_t *)"COPY", 4, image, image_len, OUT); }
static uint32_t line(void) { return pmach_line(&h, OUT); }
static uint32_t instruction(void) { return pmach_instruction(&h, 1024, OUT); }
static uint32_t command(void) {
    uint32_t status = pmach_command(&h, (const uint8_t *)"frames 9", 8);
    return status ? status : pmach_answer(&h, OUT);
}
static uint32_t set_break(void) { return pmach_break(&h, 1, 2, 0, true); }
static uint32_t watch(void) { return pmach_watch(&h, 65000, true); }
static uint32_t go(void) { uint64_t steps; uint16_t at; return pmach_go(&h, 100000, &steps, &at); }
static uint32_t on(void) {
    uint64_t steps;
    uint16_t at;
    uint32_t status = pmach_go(&h, 1, &steps, &at);
    return status ? status : pmach_on(&h, 100000, &steps, &at);
}
static uint32_t variable(void) { uint16_t word; return pmach_variable(&h, 0, 1, &word); }
static uint32_t procedures(void) { return pmach_procedures(code, code_len, OUT); }
static uint32_t sentence(void) { return pmach_sentence(8, OUT); }
static uint32_t console(void) { return pmach_console(&h, 0, OUT); }
static uint32_t printer(void) { return pmach_printer(&h, 0, OUT); }
static uint32_t ejected(void) { uint32_t status = pmach_eject(&h, 4); return status ? status : pmach_ejected(&h, OUT); }
static uint32_t poke(void) { return pmach_poke(&h, 65000, 7); }
static uint32_t place(void) { struct pmach_place p; return pmach_place(&h, &p); }

/* partial: for want of memory it may stand behind steps that went; ends: it has no machine then */
static const struct job { const char *name; uint32_t (*call)(void); int has_machine; int partial; int ends; } jobs[] = {
    {"assemble", assemble, 0, 0, 0}, {"disassemble", disassemble, 0, 0, 0}, {"raw", raw, 0, 0, 0}, {"debug", debug, 0, 0, 0},
    {"volume", volume, 0, 0, 0}, {"list", list, 0, 0, 0}, {"get", get, 0, 0, 0}, {"get_text", get_text, 0, 0, 0}, {"put", put, 0, 0, 0},
    {"put_text", put_text, 0, 0, 0}, {"remove", take, 0, 0, 0}, {"change", change, 0, 0, 0}, {"date", date, 0, 0, 0}, {"zero", zero, 0, 0, 0},
    {"duplicate", duplicate, 0, 0, 0}, {"single", single, 0, 0, 0}, {"krunch", krunch, 0, 0, 0}, {"repair", repair, 0, 0, 0},
    {"check", check, 0, 0, 0}, {"salvage", salvage, 0, 0, 0}, {"new", start, 0, 0, 0}, {"boot", boot, 0, 0, 0}, {"step", step, 1, 0, 0},
    {"run", run, 1, 1, 0}, {"key", key, 1, 0, 0}, {"mount", mount, 1, 0, 0}, {"eject", eject, 1, 0, 0},
    {"assemble_faults", faults, 0, 0, 0}, {"assemble_symbols", symbols, 0, 0, 0}, {"disassemble_names", names, 0, 0, 0},
    {"disassemble_list", listing, 0, 0, 0}, {"disassemble_statements", statements, 0, 0, 0}, {"get_slot", get_slot, 0, 0, 0},
    {"get_text_slot", get_text_slot, 0, 0, 0}, {"remove_slot", remove_slot, 0, 0, 0}, {"change_slot", change_slot, 0, 0, 0},
    {"line", line, 1, 0, 0}, {"instruction", instruction, 1, 0, 0}, {"disassemble_indented", indented, 0, 0, 0}, {"kind", kind, 0, 0, 0},
    {"kind_slot", kind_slot, 0, 0, 0}, {"copy", copy, 0, 0, 0}, {"copy_slot", copy_slot, 0, 0, 0}, {"command", command, 1, 1, 1},
    {"break", set_break, 1, 0, 0}, {"watch", watch, 1, 0, 0}, {"go", go, 1, 1, 0}, {"sentence", sentence, 0, 0, 0},
    {"console", console, 1, 0, 0}, {"printer", printer, 1, 0, 0}, {"ejected", ejected, 1, 0, 0}, {"poke", poke, 1, 0, 0},
    {"place", place, 1, 0, 0}, {"disassemble_blocks", blocks, 0, 0, 0}, {"salvage_report", report, 0, 0, 0},
    {"with_system", with_system, 0, 0, 0}, {"formats", formats, 0, 0, 0}, {"convert", convert, 0, 0, 0},
    {"convert_back", convert_back, 0, 0, 0}, {"on", on, 1, 1, 0}, {"variable", variable, 1, 0, 0},
    {"procedures", procedures, 0, 0, 0}, {"form", form, 0, 0, 0}, {"find", find, 0, 0, 0}, {"grep", grep, 0, 0, 0},
    {"info", info, 0, 0, 0}, {"compare", compare, 0, 0, 0}, {"entries", entries, 0, 0, 0},
    {"undelete", undelete, 0, 0, 0}, {"undelete_blocks", undelete_blocks, 0, 0, 0},
};

/* what the machine of a handle shows: registers, memory, both outputs; nothing of an empty one */
static size_t shown(uint8_t *to) {
    struct pmach_shown s;
    size_t n = sizeof s, more;
    memset(&s, 0, sizeof s);
    if (pmach_registers(&h, &s)) return 0;
    memcpy(to, &s, sizeof s);
    for (unsigned a = 0; a < 65536; a += 2, n += 2) {
        uint16_t word;
        pmach_word(&h, a, &word);
        memcpy(to + n, &word, 2);
    }
    pmach_console(&h, 0, to + n, ROOM - n, &more);
    n += more;
    pmach_printer(&h, 0, to + n, ROOM - n, &more);
    return n + more;
}

static void ready(const struct job *job) {
    pmach_free(&h);
    if (job->has_machine && boot()) exit(2);
    memset(out, 0xA5, ROOM);
    needed = 0;
}

static long wrong;
static void fail(const struct job *job, long k, const char *what) {
    printf("WRONG %s, allocation %ld: %s\n", job->name, k, what);
    wrong++;
}

/* one job with its allocation k refused: whether there was one */
static int refuse(const struct job *job, long k, uint32_t usual, const uint8_t *wanted, size_t wanted_len, const uint8_t *kept) {
    static uint8_t after[ROOM];
    ready(job);
    size_t n = shown(before);
    armed = k, taken = 0;
    uint32_t answer = job->call();
    int was = taken >= k;
    armed = 0;
    if (!was) return 0;
    if (answer == usual) return 1; /* nothing that it needs: it went another way */
    if (answer != PMACH_NO_MEMORY) fail(job, k, "answers something else than 5");
    if (needed) fail(job, k, "an answer without memory");
    for (size_t i = 0; i < ROOM; i++) if (out[i] != 0xA5) { fail(job, k, "the buffer is written"); break; }
    if (memcmp(image, kept, image_len)) fail(job, k, "the image is written");
    if (!job->partial && (shown(after) != n || memcmp(before, after, n))) fail(job, k, "the machine has changed");
    if (job->ends && shown(after)) fail(job, k, "the machine is still there");
    if (job->partial) ready(job);
    if (job->call() != usual || needed != wanted_len || memcmp(out, wanted, wanted_len)) fail(job, k, "made again it answers something else");
    return 1;
}

/* each answer of the header, by a call that has to give it */
static void answers(void) {
    static uint8_t long_text[(1 << 24) + 1];
    const uint8_t odd_name[] = {255}, hex[] = "02 03 82 D7", error[] = "9B", returns[] = {173, 0};
    uint64_t steps;
    uint16_t word, at;
    uint8_t unit = 5;
#define EXPECT(number, call) do { uint32_t got = (call); \
    if (got != (number)) { printf("WRONG %s is answered by %lu\n", #call, (unsigned long)got); wrong++; } } while (0)
#define SAYS(number, call, words) do { EXPECT(number, call); \
    if (needed != strlen(words) || memcmp(out, words, strlen(words))) { printf("WRONG %s says %.*s\n", #call, (int)needed, (char *)out); wrong++; } } while (0)
    pmach_free(&h);
    EXPECT(PMACH_VERSION, pmach_version());
    for (uint32_t n = PMACH_DONE; n <= PMACH_DIFFERENT; n++)
        if (pmach_sentence(n, OUT) || needed == 0) { printf("WRONG %lu has no sentence\n", (unsigned long)n); wrong++; }
    uint32_t (*const on_empty[])(void) = {step, run, key, mount, eject, line, instruction, command, set_break, watch, go, console,
        printer, ejected, poke, place, on, variable};
    for (size_t k = 0; k < sizeof on_empty / sizeof *on_empty; k++) EXPECT(PMACH_NO_MACHINE, on_empty[k]());
    EXPECT(PMACH_NO_MACHINE, pmach_word(&h, 1024, &word));
    EXPECT(PMACH_NO_MACHINE, pmach_on(&h, 9, &steps, &at));
    EXPECT(PMACH_REFUSED, pmach_procedures(odd_name, 1, OUT));
    EXPECT(PMACH_NO_MACHINE, pmach_answer(&h, OUT));
    EXPECT(PMACH_NO_MACHINE, pmach_registers(&h, &(struct pmach_shown){0}));
    EXPECT(PMACH_TOO_LONG, pmach_assemble(long_text, sizeof long_text, false, OUT));
    EXPECT(PMACH_TOO_SHORT, pmach_list(image, image_len, out, 0, &needed));
    EXPECT(PMACH_NO_TEXT, pmach_get(image, image_len, odd_name, 1, OUT));
    EXPECT(PMACH_NO_KIND, pmach_put(image, image_len, NAME, 16, text, text_len, OUT));
    EXPECT(PMACH_NO_KIND, pmach_kind(image, image_len, NAME, 16, OUT));
    EXPECT(PMACH_NO_KIND, pmach_kind_slot(image, image_len, 1, 255, OUT));
    EXPECT(PMACH_NO_FORMAT, pmach_convert(image, image_len, NAME, name, 0, OUT));
    EXPECT(PMACH_NO_FORMAT, pmach_convert_back(image, image_len, odd_name, 1, image, image_len, OUT));
    /* the lines of `find`, `grep`, `info`, `files diff` and `--form auto`, worked out by hand: HANOI has two blocks, and the
       text OTHER a header of two blocks and two pages of two */
    SAYS(PMACH_DONE, find(), "own.img: HANOI\nown.img: OTHER\n");
    SAYS(PMACH_DONE, grep(), "own.img: OTHER: 2: .SEG 1 HANOI\n");
    SAYS(PMACH_DONE, info(), "own.img: blocks OWN: files 2, free 266, largest 266\n");
    SAYS(PMACH_NOTHING, pmach_find(PATH, image, image_len, (const uint8_t *)"H=X", 3, OUT), "");
    SAYS(PMACH_NOTHING, pmach_grep(PATH, image, image_len, (const uint8_t *)".seg", 4, OUT), "");
    SAYS(PMACH_REFUSED, pmach_info(PATH, odd_name, 1, OUT), "own.img: no volume\n");
    SAYS(PMACH_NO_TEXT, pmach_find(PATH, image, image_len, odd_name, 1, OUT), "");
    SAYS(PMACH_NO_TEXT, pmach_grep(odd_name, 1, image, image_len, bare, 1, OUT), "");
    SAYS(PMACH_NO_TEXT, pmach_info(odd_name, 1, image, image_len, OUT), "");
    SAYS(PMACH_DONE, compare(), "same: HANOI\nsame: OTHER\n");
    SAYS(PMACH_REFUSED, pmach_compare(image, image_len, odd_name, 1, OUT), "refused volume 1");
    EXPECT(PMACH_DONE, take());
    memcpy(before, out, image_len);
    SAYS(PMACH_DIFFERENT, pmach_compare(image, image_len, before, image_len, OUT), "only here: HANOI\nsame: OTHER\n");
    SAYS(PMACH_DIFFERENT, pmach_compare(before, image_len, image, image_len, OUT), "same: OTHER\nonly there: HANOI\n");
    SAYS(PMACH_DONE, pmach_entries(image, image_len, false, OUT),
        "1\tHANOI\tcode\t6\t2\t512\t1024\t000-00-00\n2\tOTHER\ttext\t8\t6\t512\t3072\t000-00-00\n");
    SAYS(PMACH_REFUSED, pmach_entries(odd_name, 1, true, OUT), "refused volume 1");
    SAYS(PMACH_DONE, undelete(), "");
    SAYS(PMACH_REFUSED, pmach_undelete_blocks(image, image_len, 6, 1, OUT), "refused undelete 1");
    SAYS(PMACH_REFUSED, pmach_undelete_blocks(odd_name, 1, 6, 1, OUT), "refused volume 1");
    SAYS(PMACH_DONE, form(), "blocks");
    EXPECT(PMACH_DONE, volume()); /* a header of 280 blocks in block 2, and where the order of DOS has this block */
    memcpy(before, out, image_len);
    memcpy(before + 11 * 256, before + 1024, 26);
    SAYS(PMACH_REFUSED, pmach_form(before, image_len, OUT), "refused form 1");
    SAYS(PMACH_REFUSED, pmach_info(PATH, before, image_len, OUT), "own.img: several formats: blocks, dos\n");
    EXPECT(PMACH_REFUSED, pmach_assemble(odd_name, 1, false, OUT));
    EXPECT(PMACH_STOPPED, pmach_raw(hex, 11, 1, OUT));
    EXPECT(PMACH_FAILED, pmach_raw(error, 2, 9, OUT));
    EXPECT(PMACH_DONE, start());
    EXPECT(PMACH_HAS_MACHINE, boot());
    EXPECT(PMACH_ODD_ADDRESS, pmach_word(&h, 1025, &word));
    EXPECT(PMACH_ODD_ADDRESS, pmach_poke(&h, 1025, 7));
    EXPECT(PMACH_NO_DISK, pmach_eject(&h, unit));
    EXPECT(503, pmach_watch(&h, 1025, true));
    EXPECT(505, pmach_variable(&h, 128, 1, &word));
    EXPECT(506, pmach_on(&h, 9, &steps, &at));
    EXPECT(502, pmach_break(&h, 1, 1, 0, false));
    EXPECT(PMACH_DONE, pmach_watch(&h, 65490, true));
    EXPECT(PMACH_CHANGED, pmach_go(&h, 9, &steps, &at));
    EXPECT(65490, at);
    pmach_free(&h);
    EXPECT(PMACH_DONE, pmach_new(&h, returns, 2));
    EXPECT(PMACH_DONE, pmach_poke(&h, 65496, 1025)); /* MSJTAB of its frame, to which RNP returns */
    EXPECT(PMACH_ENDED, step());
    EXPECT(PMACH_NO_PLACE, place());
    pmach_free(&h);
    EXPECT(PMACH_DONE, boot());
    EXPECT(PMACH_DONE, set_break());
    EXPECT(PMACH_AT_BREAK, go());
    EXPECT(PMACH_ENDED, run());
    pmach_free(&h);
}

int main(int argc, char **argv) {
    static uint8_t wanted[ROOM], kept[ROOM];
    long calls = 0, allocations = 0;
    FILE *file = argc == 2 ? fopen(argv[1], "rb") : NULL;
    if (!file) return 2;
    text_len = fread(text, 1, ROOM, file);
    fclose(file);
    if (pmach_assemble(text, text_len, false, code, ROOM, &code_len)) return 2;
    if (pmach_assemble(system_text, sizeof system_text - 1, false, segment, ROOM, &segment_len)) return 2;
    if (pmach_volume((const uint8_t *)"OWN", 3, 280, OUT)) return 2;
    memcpy(image, out, image_len = needed);
    if (pmach_put(image, image_len, NAME, 2, code, code_len, OUT)) return 2;
    memcpy(image, out, image_len = needed);
    if (pmach_put_text(image, image_len, other, 5, text, text_len, OUT)) return 2;
    memcpy(image, out, image_len = needed);
    memcpy(kept, image, image_len);
    for (size_t j = 0; j < sizeof jobs / sizeof *jobs; j++, calls++) {
        ready(&jobs[j]);
        uint32_t usual = jobs[j].call();
        size_t wanted_len = needed;
        memcpy(wanted, out, wanted_len);
        for (long k = 1; refuse(&jobs[j], k, usual, wanted, wanted_len, kept); k++) allocations++;
    }
    answers();
    printf("%ld calls, %ld allocations refused, %ld wrong\n", calls, allocations, wrong);
    return wrong != 0;
}
