/* pmach.h: the p-machine as a library. docs/LIBRARY.md explains what is proved about it.

   Every call requires the following of its caller. Nothing checks it.
   - A pointer is never null, and points to as many bytes, numbers or structs as the parameters specify, even if this is 0.
     An object that the call writes (struct pmach *, struct pmach_shown *, struct pmach_place *, out, needed, steps, word,
     address) does not overlap any other argument of the same call.
   - A struct pmach is set to {0} before its first call, and only these calls change it. It is not copied and used twice.
     Discarding one that contains a machine leaks memory. It is used by one call at a time, only on the thread that
     created its machine.
   - malloc, realloc and free belong to the same C library, which aligns as the standard requires. No call is made from a
     signal handler, or in the forked child of a process with threads.

   There is no global state. The library keeps no pointer to an argument: an image is copied. */
#ifndef PMACH_H
#define PMACH_H
#include <stdbool.h>
#include <stddef.h>
#include <stdint.h>
#ifdef __cplusplus
extern "C" {
#endif

#define PMACH_VERSION_TEXT "0.1"

/* The results of the calls; pmach_sentence returns a text for each. */
enum {
    PMACH_VERSION = 1,     /* of this header; pmach_version returns that of the library */
    PMACH_DONE = 0,        /* success; of a step and a run: the machine can continue */
    PMACH_WAITING = 1,     /* the machine waits for console bytes */
    PMACH_ENDED = 2,       /* the program has ended */
    PMACH_REFUSED = 2,     /* a job is refused; its answer contains the reason */
    PMACH_FAILED = 3,      /* an execution error stopped the program of a job */
    PMACH_STOPPED = 6,     /* the program of a job reached its step limit, or waits for console bytes */
    PMACH_TOO_LONG = 4,    /* the input of a job has more than 16,777,216 bytes */
    PMACH_NO_MEMORY = 5,   /* out of memory, nothing has changed; of a run: the steps executed so far remain */
    PMACH_TOO_SHORT = 7,   /* out is too short: nothing was written to it, and *needed is the length that is needed */
    PMACH_NO_MACHINE = 8,  /* the handle is empty */
    PMACH_HAS_MACHINE = 9, /* the handle has a machine already */
    PMACH_ODD_ADDRESS = 10,
    PMACH_NO_DISK = 11,
    PMACH_NO_TEXT = 12,    /* a name is not UTF-8 */
    PMACH_NO_PLACE = 13,   /* SEG or JTAB is odd, so the position in the code is unknown */
    PMACH_NO_KIND = 14,    /* the kind is above 15 */
    PMACH_AT_BREAK = 15,   /* the run has reached a breakpoint */
    PMACH_CHANGED = 16,    /* a watched word has changed */
    PMACH_NO_FORMAT = 17,  /* a name is not the name of a format of images */
    PMACH_NOTHING = 18,    /* a search found nothing; its answer is empty */
    PMACH_DIFFERENT = 19   /* of two volumes: a file differs, or is on one volume only; the answer has all lines */
    /* 100 + N: execution error N. 200 + N: `refused boot N`. 300 + N: 301 not a disk unit, 302 the unit has a disk.
       400 + N: `refused volume N`. 500 + N: 501 too many breakpoints or watched words, 502 not set, 503 odd address,
       505 too many static links, 506 there is no run to continue. */
};

/* Writes the text for a result; an empty text if it is not a result. Returns 0; 7. For the message of a job the number is
   400 + N for `refused volume N` and `refused filer 1 N`, 200 + N for `refused boot N`, 600 + N for `refused asm N`,
   700 + N for `refused code N`, 800 + N for `refused filer 2 N`, 900 + N for `refused convert N`, 1000 + N for
   `refused system N`, 1101 for `refused form 1`, and 1201 for `refused undelete 1`. */
uint32_t pmach_sentence(uint32_t status, uint8_t *out, size_t out_len, size_t *needed);
/* Returns the version of the library: 100 times its first number plus its second. Compare it with PMACH_VERSION. */
uint32_t pmach_version(void);

/* ---- whole jobs: bytes in, an answer out
   The answer is written to the start of out, and *needed is its length. They return 0 if the job was done; 2 if it was
   refused, and then the answer is the message of the program, such as `refused asm 2 1`, without a line feed; 7, 4 and 5
   as above. With 4, 5, 12, 14 and 17 there is no answer, and *needed is 0. */

/* the code file of an assembler text, or its listing if list is true */
uint32_t pmach_assemble(const uint8_t *text, size_t text_len, bool list, uint8_t *out, size_t out_len, size_t *needed);
/* a line for each of its errors, and 2; 0 if there are none */
uint32_t pmach_assemble_faults(const uint8_t *text, size_t text_len, uint8_t *out, size_t out_len, size_t *needed);
/* a line for each of its procedures and labels */
uint32_t pmach_assemble_symbols(const uint8_t *text, size_t text_len, uint8_t *out, size_t out_len, size_t *needed);
/* the text of a code file; with the names of standard procedures; as a listing; as statements */
uint32_t pmach_disassemble(const uint8_t *file, size_t file_len, uint8_t *out, size_t out_len, size_t *needed);
uint32_t pmach_disassemble_names(const uint8_t *file, size_t file_len, uint8_t *out, size_t out_len, size_t *needed);
uint32_t pmach_disassemble_list(const uint8_t *file, size_t file_len, uint8_t *out, size_t out_len, size_t *needed);
uint32_t pmach_disassemble_statements(const uint8_t *file, size_t file_len,
    uint8_t *out, size_t out_len, size_t *needed);
/* as statements, indented by their depth */
uint32_t pmach_disassemble_indented(const uint8_t *file, size_t file_len,
    uint8_t *out, size_t out_len, size_t *needed);
/* as statements in blocks */
uint32_t pmach_disassemble_blocks(const uint8_t *file, size_t file_len, uint8_t *out, size_t out_len, size_t *needed);
/* a line of six numbers for each procedure of a code file that has an attribute table: the slot of its segment and its
   number, as a disassembly shows them; the number of its segment, as pmach_place and pmach_break use it; the offset of its
   first instruction in the segment, and the sizes of its parameters and local variables, in bytes */
uint32_t pmach_procedures(const uint8_t *file, size_t file_len, uint8_t *out, size_t out_len, size_t *needed);
/* the trace of bare code, given in hexadecimal digits: 0 ended, 3 execution error, 6 step limit or waiting */
uint32_t pmach_raw(const uint8_t *text, size_t text_len, uint32_t limit, uint8_t *out, size_t out_len, size_t *needed);

/* the answers of the debugger to the commands in input, for the program NAME of the volume on unit 4 */
uint32_t pmach_debug(const uint8_t *image, size_t image_len, const uint8_t *name, size_t name_len,
    const uint8_t *input, size_t input_len, uint8_t *out, size_t out_len, size_t *needed);

/* Jobs on the image of a volume. It is not changed: the answer of a change is the new image. */
uint32_t pmach_volume(const uint8_t *name, size_t name_len, uint16_t blocks,
    uint8_t *out, size_t out_len, size_t *needed); /* a new volume without files */
uint32_t pmach_list(const uint8_t *image, size_t image_len, uint8_t *out, size_t out_len, size_t *needed);
uint32_t pmach_get(const uint8_t *image, size_t image_len, const uint8_t *name, size_t name_len,
    uint8_t *out, size_t out_len, size_t *needed);
uint32_t pmach_get_text(const uint8_t *image, size_t image_len, const uint8_t *name, size_t name_len,
    uint8_t *out, size_t out_len, size_t *needed);
/* kind: 2 code, 3 text, 5 data, as in docs/FILES.md; returns 14 if it is above 15 */
uint32_t pmach_put(const uint8_t *image, size_t image_len, const uint8_t *name, size_t name_len,
    uint8_t kind, const uint8_t *bytes, size_t bytes_len, uint8_t *out, size_t out_len, size_t *needed);
uint32_t pmach_put_text(const uint8_t *image, size_t image_len, const uint8_t *name, size_t name_len,
    const uint8_t *text, size_t text_len, uint8_t *out, size_t out_len, size_t *needed);
uint32_t pmach_remove(const uint8_t *image, size_t image_len, const uint8_t *name, size_t name_len,
    uint8_t *out, size_t out_len, size_t *needed);
uint32_t pmach_change(const uint8_t *image, size_t image_len, const uint8_t *name, size_t name_len,
    const uint8_t *new_name, size_t new_len, uint8_t *out, size_t out_len, size_t *needed);
/* the same for the file in a slot: its position in the list, from 1. Use it if a name occurs twice or cannot be typed */
uint32_t pmach_get_slot(const uint8_t *image, size_t image_len, uint16_t slot,
    uint8_t *out, size_t out_len, size_t *needed);
uint32_t pmach_get_text_slot(const uint8_t *image, size_t image_len, uint16_t slot,
    uint8_t *out, size_t out_len, size_t *needed);
uint32_t pmach_remove_slot(const uint8_t *image, size_t image_len, uint16_t slot,
    uint8_t *out, size_t out_len, size_t *needed);
uint32_t pmach_change_slot(const uint8_t *image, size_t image_len, uint16_t slot, const uint8_t *new_name,
    size_t new_len, uint8_t *out, size_t out_len, size_t *needed);
/* changes the kind, as for pmach_put, of the first file with a name, or of the file in a slot */
uint32_t pmach_kind(const uint8_t *image, size_t image_len, const uint8_t *name, size_t name_len, uint8_t kind,
    uint8_t *out, size_t out_len, size_t *needed);
uint32_t pmach_kind_slot(const uint8_t *image, size_t image_len, uint16_t slot, uint8_t kind,
    uint8_t *out, size_t out_len, size_t *needed);
/* adds the first file with a name from the volume in the image from, with its kind and date; or the file in a slot of that
   volume, under the name */
uint32_t pmach_copy(const uint8_t *image, size_t image_len, const uint8_t *name, size_t name_len,
    const uint8_t *from, size_t from_len, uint8_t *out, size_t out_len, size_t *needed);
uint32_t pmach_copy_slot(const uint8_t *image, size_t image_len, uint16_t slot, const uint8_t *name, size_t name_len,
    const uint8_t *from, size_t from_len, uint8_t *out, size_t out_len, size_t *needed);
/* sets the volume's last date: year 0 to 127, month 1 to 12, day 1 to 31 */
uint32_t pmach_date(const uint8_t *image, size_t image_len, uint8_t year, uint8_t month, uint8_t day,
    uint8_t *out, size_t out_len, size_t *needed);
/* deletes all files and renames the volume */
uint32_t pmach_zero(const uint8_t *image, size_t image_len, const uint8_t *name, size_t name_len,
    uint8_t *out, size_t out_len, size_t *needed);
/* adds a second copy of the directory, and removes it */
uint32_t pmach_duplicate(const uint8_t *image, size_t image_len, uint8_t *out, size_t out_len, size_t *needed);
uint32_t pmach_single(const uint8_t *image, size_t image_len, uint8_t *out, size_t out_len, size_t *needed);
uint32_t pmach_krunch(const uint8_t *image, size_t image_len, uint8_t *out, size_t out_len, size_t *needed);
uint32_t pmach_repair(const uint8_t *image, size_t image_len, uint8_t *out, size_t out_len, size_t *needed);
/* what is wrong with an image, and then the message if it is not a volume (2) */
uint32_t pmach_check(const uint8_t *image, size_t image_len, uint8_t *out, size_t out_len, size_t *needed);
/* a new volume with the valid files of a damaged image, by the first copy of the directory or the second */
uint32_t pmach_salvage(const uint8_t *image, size_t image_len, bool second,
    uint8_t *out, size_t out_len, size_t *needed);
/* the report of pmach_salvage: a line for each entry that is copied or left out, and a last line */
uint32_t pmach_salvage_report(const uint8_t *image, size_t image_len, bool second,
    uint8_t *out, size_t out_len, size_t *needed);
/* adds the segment in slot 0 of the code file `system` to the first file with a name, in its slot 0, as `run --system` does
   in memory: `refused volume N`, `refused system N`; the image unchanged if this is no code file or no file has the name */
uint32_t pmach_with_system(const uint8_t *image, size_t image_len, const uint8_t *name, size_t name_len,
    const uint8_t *system, size_t system_len, uint8_t *out, size_t out_len, size_t *needed);

/* Formats of images. A format is a name of docs/COMMANDS.md, "`convert`", such as `dos` or `2mg-blocks`; the other calls
   read volumes in the format `blocks`. If `from` is empty, it is the only format in which the image opens. */
/* a line for each format in which the image opens as a volume: the format, the name of the volume and a colon, and the
   last line of its list; empty if there is none. Never 2 */
uint32_t pmach_formats(const uint8_t *image, size_t image_len, uint8_t *out, size_t out_len, size_t *needed);
/* a new image, in the format `to`, of the volume in the image: 2 `refused convert N`; 17 */
uint32_t pmach_convert(const uint8_t *image, size_t image_len, const uint8_t *from, size_t from_len,
    const uint8_t *to, size_t to_len, uint8_t *out, size_t out_len, size_t *needed);
/* the image with these blocks instead of its own: in its format, with its header and the bytes after its volume:
   2 `refused convert N`; 17 */
uint32_t pmach_convert_back(const uint8_t *image, size_t image_len, const uint8_t *from, size_t from_len,
    const uint8_t *blocks, size_t blocks_len, uint8_t *out, size_t out_len, size_t *needed);

/* the form that `--form auto` finds: `blocks`, `dos`, `swapped` or `2mg`, the only one of these in which the image opens as
   a volume. If it opens in none of them, the first other format that pmach_check reports, or `blocks` if it reports none.
   2 `refused form 1` if it opens in several; pmach_formats lists them */
uint32_t pmach_form(const uint8_t *image, size_t image_len, uint8_t *out, size_t out_len, size_t *needed);

/* Searches in an image of any format, as docs/COMMANDS.md, "Searches", describes them. The path is only printed, before a
   colon and a space in each line. They return 0 if something was found; 18; 12 if the path, or the pattern, is not UTF-8; or
   2 if the image opens in no format, or in several: then the answer is the line `PATH: no volume`, or
   `PATH: several formats: FORMAT, FORMAT ..`. Each line, also of 2, ends with a line feed. */
/* a line `PATH: NAME` for each file whose name matches the pattern: `=` matches any characters, and case is ignored */
uint32_t pmach_find(const uint8_t *path, size_t path_len, const uint8_t *image, size_t image_len,
    const uint8_t *pattern, size_t pattern_len, uint8_t *out, size_t out_len, size_t *needed);
/* a line `PATH: NAME: N: LINE` for each line of a text file that contains the bytes of the text; N is from 1. Case matters,
   and each line contains the empty text */
uint32_t pmach_grep(const uint8_t *path, size_t path_len, const uint8_t *image, size_t image_len,
    const uint8_t *text, size_t text_len, uint8_t *out, size_t out_len, size_t *needed);
/* the line `PATH: FORMAT VOLUME: files F, free B, largest L`. Never 18 */
uint32_t pmach_info(const uint8_t *path, size_t path_len, const uint8_t *image, size_t image_len,
    uint8_t *out, size_t out_len, size_t *needed);

/* the lines of `files diff` for the volumes in two images: `same: NAME`, `differ: NAME: byte N`, `differ: NAME: kind`,
   `only here: NAME` for a file of the first image, `only there: NAME` for a file of the other. 0 if all lines are `same`, or
   there are none; 19; 2 `refused volume N` if one image is no volume; the first image is opened first */
uint32_t pmach_compare(const uint8_t *image, size_t image_len, const uint8_t *other, size_t other_len,
    uint8_t *out, size_t out_len, size_t *needed);

/* the files of a volume as data: the JSON object of `files list --json`, or, without `json`, the lines of `files list --tabs`.
   2 `refused volume N` if the image is no volume */
uint32_t pmach_entries(const uint8_t *image, size_t image_len, bool json, uint8_t *out, size_t out_len, size_t *needed);

/* the lines of `files undelete`: `block N blocks K text` or `block N blocks K code` for each free block at which a removed
   file seems to begin. 2 `refused volume N` if the image is no volume */
uint32_t pmach_undelete(const uint8_t *image, size_t image_len, uint8_t *out, size_t out_len, size_t *needed);
/* the bytes of the `count` free blocks from block `first` on. 2 `refused volume N` if the image is no volume, and
   `refused undelete 1` if not all of the blocks are free, or `count` is 0 */
uint32_t pmach_undelete_blocks(const uint8_t *image, size_t image_len, uint16_t first, uint16_t count,
    uint8_t *out, size_t out_len, size_t *needed);

/* ---- a machine, used through a handle */

struct pmach {
    void *machine; /* null if there is no machine */
};

struct pmach_shown {
    uint64_t steps;  /* the number of executed steps, including the one that ended the program */
    uint32_t status; /* 0 it can continue, 2 it has ended, 100 + N it was stopped by execution error N */
    uint16_t ipc, sp, mp, base, np, seg, jtab, ioresult;
};

struct pmach_place {
    uint8_t segment, procedure; /* their numbers */
    uint16_t offset;            /* in bytes from the entry of the procedure, as in a disassembly */
};

/* Creates a machine at the start of bare code. Returns 0; or, without a change of the handle: 9; 203 if the code has more
   than 60,000 bytes; 5. */
uint32_t pmach_new(struct pmach *h, const uint8_t *code, size_t code_len);
/* Creates a machine at the start of the code file NAME of a volume, which is copied to unit 4. Returns 0; or, without a
   change of the handle: 9; 12; 400 + N not a volume; 200 + N no such program; 100 + N its first call fails; 5. */
uint32_t pmach_boot(struct pmach *h, const uint8_t *image, size_t image_len, const uint8_t *name, size_t name_len,
    uint32_t clock);
/* Frees the machine. An empty handle is left empty. */
void pmach_free(struct pmach *h);

/* Executes a step: 0 success, 1 it waits for console bytes, 2 the program has ended, 100 + N execution error N; 8; 5. */
uint32_t pmach_step(struct pmach *h);
/* Executes at most limit steps while they succeed. Returns the result of the last step, 0 at the limit; *steps is the
   number of steps that were executed. */
uint32_t pmach_run(struct pmach *h, uint64_t limit, uint64_t *steps);
/* Appends a byte to the console input: 0; 8; 5. */
uint32_t pmach_key(struct pmach *h, uint8_t byte);
/* Writes a word to an even address: 0; 10; 8. */
uint32_t pmach_poke(struct pmach *h, uint16_t address, uint16_t word);
/* Mounts a copy of a volume on unit 4, 5, 9, 10, 11 or 12: 0; 400 + N; 301; 302; 8; 5. */
uint32_t pmach_mount(struct pmach *h, uint8_t unit, const uint8_t *image, size_t image_len);
/* Ejects the disk of a unit: 0; 11; 8. pmach_ejected writes its image, until another disk is ejected: 0; 7; 11; 8. */
uint32_t pmach_eject(struct pmach *h, uint8_t unit);
uint32_t pmach_ejected(struct pmach *h, uint8_t *out, size_t out_len, size_t *needed);

/* ---- a session of the debugger on that machine, with its breakpoints, watched words and last run */

/* Executes a line of the debugger, such as `where`, given without a line feed: 0; 8; 5. After 5 (out of memory) the state
   of the machine is unknown: it is freed, and the handle is empty. pmach_answer writes the answer with its line feed,
   until the next line is executed: 0; 7; 8. */
uint32_t pmach_command(struct pmach *h, const uint8_t *line, size_t line_len);
uint32_t pmach_answer(struct pmach *h, uint8_t *out, size_t out_len, size_t *needed);
/* Sets a breakpoint at an offset of a procedure of a segment, or watches a word at an even address; removes it if on is
   false: 0; 501 there are 64 already; 502 not set; 503 odd address; 8. */
uint32_t pmach_break(struct pmach *h, uint8_t segment, uint8_t procedure, uint16_t offset, bool on);
uint32_t pmach_watch(struct pmach *h, uint16_t address, bool on);
/* Like pmach_run, but before each step except the first it stops at a breakpoint (15, even after a line `ignore`), or if a
   watched word has changed (16, and *address is its address). */
uint32_t pmach_go(struct pmach *h, uint64_t limit, uint64_t *steps, uint16_t *address);
/* Continues the last run of pmach_go, pmach_on or a line, which its limit stopped, as if the limit had not stopped it. A run
   in slices is one run: also a breakpoint at the first of the new steps stops it, and *steps counts the whole run. Returns
   what pmach_go returns; or, without a change: 506 no run can be continued. */
uint32_t pmach_on(struct pmach *h, uint64_t limit, uint64_t *steps, uint16_t *address);

/* ---- These change nothing. 0; 8, and then nothing is written. */
uint32_t pmach_registers(struct pmach *h, struct pmach_shown *shown);
/* the word at an address; 10 at an odd one */
uint32_t pmach_word(struct pmach *h, uint16_t address, uint16_t *word);
/* the value of variable `number` of the procedure that is `depth` static links up: 503 an odd address; 505 depth is above
   127 */
uint32_t pmach_variable(struct pmach *h, uint16_t depth, uint16_t number, uint16_t *word);
/* the bytes written to the console, or to the printer, without the first `from` bytes; 7 */
uint32_t pmach_console(struct pmach *h, size_t from, uint8_t *out, size_t out_len, size_t *needed);
uint32_t pmach_printer(struct pmach *h, size_t from, uint8_t *out, size_t out_len, size_t *needed);
/* the position of the machine in the code; 13 */
uint32_t pmach_place(struct pmach *h, struct pmach_place *place);
/* the text of the instruction at an address, or .BYTE and the byte at that address; 7; 5 */
uint32_t pmach_instruction(struct pmach *h, uint16_t address, uint8_t *out, size_t out_len, size_t *needed);
/* the line of `pmach trace` for the next step, without a line feed; 7; 5 */
uint32_t pmach_line(struct pmach *h, uint8_t *out, size_t out_len, size_t *needed);

#ifdef __cplusplus
}
#endif
#endif
