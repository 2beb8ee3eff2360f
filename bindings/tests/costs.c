/* Makes the calls of bench/programs/c_calls by the library for C, as often, and prints the same. `bindings/library` counts the instructions of both. */
#include <enforce.h>
#include <stdio.h>
#include <stdlib.h>
#include <string.h>

enum { ROOM = 4096, LINE = 65536 };

static enforce_path_row paths[64];
static enforce_fact_row facts[256];
static enforce_signature_row signatures[16];
static const enforce_preimage_row no_preimages[1];
static const enforce_key_row no_keys[1];
static enforce_note_row noted[64];
static enforce_slot_row prepared[16];
static uint8_t script[LINE / 2], room[ROOM];

static size_t read_hex(const char *from, uint8_t *bytes, size_t most) {
    size_t length = strlen(from) / 2;
    unsigned byte;
    if (length > most) exit(2);
    for (size_t i = 0; i < length; i++) {
        if (sscanf(from + 2 * i, "%2x", &byte) != 1) exit(2);
        bytes[i] = (uint8_t)byte;
    }
    return length;
}

static size_t program(size_t length) {
    uint8_t made[34];
    enforce_script_program(script, length, &made);
    return sizeof made;
}

static size_t list(size_t length) {
    enforce_answer answer = {0};
    return enforce_script_list(script, length, paths, 64, facts, 256, room, ROOM, &answer) == ENFORCE_DONE ? answer.paths : 0;
}

static size_t notes(size_t length) {
    enforce_notes_answer answer = {0};
    return enforce_script_notes(script, length, noted, 64, &answer) == ENFORCE_DONE ? answer.notes + 1 : 0;
}

static size_t slots(size_t length) {
    enforce_slots_answer answer = {0};
    return enforce_path_slots(script, length, 1, no_keys, 0, no_preimages, 0, prepared, 16, room, ROOM, &answer) == ENFORCE_DONE ? answer.slots : 0;
}

static size_t form(const uint8_t *key, const uint8_t *other) {
    enforce_form given = {.kind = ENFORCE_FORM_TO_LOCAL, .delay_blocks = 144};
    enforce_answer answer = {0};
    memcpy(given.revocation, key, 33), memcpy(given.local, other, 33);
    return enforce_form_script(&given, room, ROOM, &answer) == ENFORCE_DONE ? answer.bytes : 0;
}

/* The claim by the second path of the script, whose bytes end in those of an output. Its program comes after the script. */
static enforce_claim_row claim_of(size_t length, const uint8_t *key, enforce_slot_row slots[2]) {
    enforce_claim_row claim = {.index = 1, .value = 100000, .script_length = length, .program_at = length, .program_length = 34, .path = 1, .slots = 2};
    uint8_t made[34];
    memset(claim.txid, 7, sizeof claim.txid);
    slots[0] = (enforce_slot_row){.kind = ENFORCE_SLOT_EXACT}, slots[1] = (enforce_slot_row){.kind = ENFORCE_SLOT_SIGNATURE};
    memcpy(slots[1].key, key, 33);
    enforce_script_program(script, length, &made);
    memcpy(script + length, made, sizeof made);
    memset(script + length + 34, 0x51, 34);
    return claim;
}

static size_t claim(size_t length, const uint8_t *key) {
    enforce_slot_row slots[2];
    enforce_claim_row given = claim_of(length, key, slots);
    enforce_due due = {0};
    enforce_answer answer = {0};
    return enforce_claim(&given, slots, 2, script, length + 68, &due, &answer) == ENFORCE_DONE ? due.sequence : 0;
}

static size_t spend(size_t length, const uint8_t *key) {
    enforce_slot_row slots[2];
    enforce_claim_row given = claim_of(length, key, slots);
    enforce_output_row output = {.value = 99000, .script_at = length + 34, .script_length = 34};
    enforce_spend_answer answer = {0};
    uint32_t status = enforce_unsigned_spend(&given, 1, slots, 2, &output, 1, no_preimages, 0, script, length + 68, room, ROOM, signatures, 16, &answer);
    return status == ENFORCE_DONE ? answer.bytes : 0;
}

/* The shortest signature in strict DER, with the byte of SIGHASH_ALL, stands behind the output's script. */
static size_t finish(size_t length, const uint8_t *key) {
    static const uint8_t signature[] = {0x30, 6, 2, 1, 1, 2, 1, 1, 1};
    enforce_slot_row slots[2];
    enforce_claim_row given = claim_of(length, key, slots);
    enforce_output_row output = {.value = 99000, .script_at = length + 34, .script_length = 34};
    enforce_signed_row signed_row = {.input = 0, .item = 0, .bytes_at = length + 68, .bytes_length = sizeof signature};
    enforce_finish_answer answer = {0};
    memcpy(script + length + 68, signature, sizeof signature);
    uint32_t status = enforce_finish(&given, 1, slots, 2, &output, 1, no_preimages, 0, &signed_row, 1, script, length + 68 + sizeof signature, room, ROOM, &answer);
    return status == ENFORCE_DONE ? answer.bytes : 0;
}

static size_t once(const char *word, size_t length, const uint8_t *key, const uint8_t *other) {
    if (!strcmp(word, "program")) return program(length);
    if (!strcmp(word, "list")) return list(length);
    if (!strcmp(word, "notes")) return notes(length);
    if (!strcmp(word, "form")) return form(key, other);
    if (!strcmp(word, "slots")) return slots(length);
    if (!strcmp(word, "finish")) return finish(length, other);
    return strcmp(word, "claim") ? spend(length, other) : claim(length, other);
}

int main(void) {
    static char line[LINE], word[16], given[LINE], first[LINE], second[LINE];
    unsigned count;
    while (fgets(line, sizeof line, stdin)) {
        uint8_t key[33], other[33];
        size_t told = 0;
        if (sscanf(line, "%15s %u %65535s %65535s %65535s", word, &count, given, first, second) != 5) return 2;
        size_t length = read_hex(given, script, sizeof script - 77);
        if (read_hex(first, key, sizeof key) != sizeof key || read_hex(second, other, sizeof other) != sizeof other) return 2;
        for (unsigned i = 0; i < count; i++) told += once(word, length, key, other);
        printf("%zu\n", told);
    }
    return 0;
}
