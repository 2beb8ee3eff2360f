/* A wallet that is asked to pay to a script: is it the to_local script of BOLT 3 with these keys, and if not, who can spend it, and when?

     cc $(pkg-config --cflags enforce) wallet.c $(pkg-config --libs enforce)
     ./a.out SCRIPT REVOCATION_KEY DELAY DELAYED_KEY */
#include <enforce.h>
#include <inttypes.h>
#include <stdio.h>
#include <stdlib.h>
#include <string.h>

/* The bytes that hexadecimal digits spell, at least and at most this many; how many there are. */
static size_t read_hex(const char *from, uint8_t *bytes, size_t least, size_t most) {
    size_t length = strlen(from);
    if (length % 2 || length < 2 * least || length > 2 * most || strspn(from, "0123456789abcdefABCDEF") != length) exit(2);
    for (size_t i = 0; i < length / 2; i++) sscanf(from + 2 * i, "%2" SCNx8, bytes + i);
    return length / 2;
}

/* A number of 16 bits. What is none ends the program: a delay that is cut short would be another one. */
static uint16_t read_number(const char *from) {
    char *end;
    unsigned long found = strtoul(from, &end, 10);
    if (*from < '0' || *from > '9' || *end || found > UINT16_MAX) exit(2);
    return (uint16_t)found;
}

/* Whether these are the bytes of the form's script. */
static bool is_form(const uint8_t *script, size_t length, const enforce_form *form) {
    uint8_t wanted[256];
    enforce_answer answer = {0};
    uint32_t status = enforce_form_script(form, wanted, sizeof wanted, &answer);
    return status == ENFORCE_DONE && answer.bytes == length && !memcmp(wanted, script, length);
}

/* Whether a path has a relative lock in units of 512 seconds (BIP 68, bit 22), which stands among its facts alone. */
static int is_timed(const enforce_fact_row *facts, size_t count) {
    for (size_t k = 0; k < count; k++)
        if (facts[k].kind == ENFORCE_FACT_AGE && facts[k].holds && facts[k].number >> 22 & 1) return 1;
    return 0;
}

/* Prints who can spend an output with this script, in short. */
static int tell(const uint8_t *script, size_t length) {
    static enforce_path_row paths[64];
    static enforce_fact_row facts[4096];
    static uint8_t bytes[65536];
    enforce_answer answer = {0};
    uint32_t status = enforce_script_list(script, length, paths, 64, facts, 4096, bytes, sizeof bytes, &answer);
    if (status != ENFORCE_DONE) {
        printf("not listed: %s %zu\n", enforce_name(status), answer.number);
        return 1;
    }
    for (size_t k = 0; k < answer.paths; k++) {
        printf("path %zu: %zu items", k, paths[k].arity);
        if (paths[k].has_age) printf(", after %u blocks", paths[k].age);
        if (paths[k].has_lock) printf(", not before %llu", (unsigned long long)paths[k].lock);
        printf("%s\n", is_timed(facts + paths[k].first_fact, paths[k].facts) ? ", after units of 512 seconds" : "");
    }
    return 0;
}

int main(int argc, char **argv) {
    static uint8_t script[10001];
    enforce_form form = {.kind = ENFORCE_FORM_TO_LOCAL};
    if (argc != 5 || enforce_abi() != ENFORCE_ABI) return 2;
    size_t length = read_hex(argv[1], script, 0, sizeof script);
    read_hex(argv[2], form.revocation, 33, 33), read_hex(argv[4], form.local, 33, 33);
    form.delay_blocks = read_number(argv[3]);
    if (is_form(script, length, &form)) printf("it is the to_local script with these keys\n");
    return tell(script, length);
}
