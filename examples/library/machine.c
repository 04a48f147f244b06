/* Assembles a program, adds it to a new disk, runs it there and prints the result: machine TEXT NAME KEYS.
   TEXT is the path of an assembler text, NAME the name of its code file on the disk, KEYS the console input. */
#include "pmach.h"
#include <stdio.h>
#include <stdlib.h>
#include <string.h>

enum { MOST = 65536 };
static uint8_t text[MOST], code[MOST], blank[MOST], disk[MOST], told[MOST];

static void stop_unless(uint32_t wanted, uint32_t status, const char *call) {
    if (status != wanted) {
        printf("%s: status %lu\n", call, (unsigned long)status);
        exit(1);
    }
}

static void show_console(struct pmach *h, size_t *seen) {
    size_t count = 0;
    stop_unless(PMACH_DONE, pmach_console(h, *seen, told, sizeof told, &count), "console");
    fwrite(told, 1, count, stdout);
    *seen += count;
}

int main(int argc, char **argv) {
    if (argc != 4) {
        fprintf(stderr, "usage: machine TEXT NAME KEYS\n");
        return 1;
    }
    FILE *file = fopen(argv[1], "rb");
    if (file == NULL) {
        perror(argv[1]);
        return 1;
    }
    size_t text_len = fread(text, 1, sizeof text, file), wanted = 0, code_len = 0, blank_len = 0, disk_len = 0, len = 0;
    fclose(file);
    const uint8_t *name = (const uint8_t *)argv[2];
    size_t name_len = strlen(argv[2]);

    /* the length of the code file, and then the code file */
    stop_unless(PMACH_TOO_SHORT, pmach_assemble(text, text_len, false, code, 0, &wanted), "assemble without a buffer");
    stop_unless(PMACH_DONE, pmach_assemble(text, text_len, false, code, sizeof code, &code_len), "assemble");
    printf("code %lu %s\n", (unsigned long)code_len, code_len == wanted ? "as expected" : "NOT AS EXPECTED");

    /* a disk with this file */
    stop_unless(PMACH_DONE, pmach_volume((const uint8_t *)"OWN", 3, 40, blank, sizeof blank, &blank_len), "volume");
    stop_unless(PMACH_DONE, pmach_put(blank, blank_len, name, name_len, 2, code, code_len, disk, sizeof disk, &disk_len),
        "put");
    stop_unless(PMACH_DONE, pmach_list(disk, disk_len, told, sizeof told, &len), "list");
    fwrite(told, 1, len, stdout);

    /* runs the program on the disk; when it waits, it gets the next key */
    struct pmach h = {0};
    stop_unless(PMACH_NO_MACHINE, pmach_step(&h), "step of an empty handle");
    stop_unless(PMACH_DONE, pmach_boot(&h, disk, disk_len, name, name_len, 0), "boot");
    stop_unless(PMACH_HAS_MACHINE, pmach_boot(&h, disk, disk_len, name, name_len, 0), "boot of a full handle");
    const char *keys = argv[3];
    size_t seen = 0;
    uint32_t status;
    for (;;) {
        uint64_t steps = 0;
        status = pmach_run(&h, 1000, &steps);
        show_console(&h, &seen);
        if (status == 1 && *keys != 0) {
            stop_unless(PMACH_DONE, pmach_key(&h, (uint8_t)*keys++), "key");
        } else if (status != PMACH_DONE) {
            break;
        }
    }
    struct pmach_shown shown;
    stop_unless(PMACH_DONE, pmach_registers(&h, &shown), "registers");
    printf("\nstatus %lu steps %llu\n", (unsigned long)status, (unsigned long long)shown.steps);

    /* the disk as the program left it */
    stop_unless(PMACH_DONE, pmach_eject(&h, 4), "eject");
    stop_unless(PMACH_NO_DISK, pmach_eject(&h, 4), "eject again");
    stop_unless(PMACH_DONE, pmach_ejected(&h, told, sizeof told, &len), "ejected");
    printf("disk %s\n", len == disk_len && memcmp(told, disk, len) == 0 ? "the same" : "another");
    stop_unless(PMACH_DONE, pmach_mount(&h, 4, told, len), "mount");
    stop_unless(302, pmach_mount(&h, 4, told, len), "mount on a disk");

    pmach_free(&h);
    pmach_free(&h);
    stop_unless(PMACH_NO_MACHINE, pmach_key(&h, 65), "key of a freed handle");
    printf("freed\n");
    return 0;
}
