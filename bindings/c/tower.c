/* A tower: from a transaction and what is known of a revoked commitment to the penalty that nobody has signed yet. Reads words from standard input: the transaction, the type of the channel, the delay, five keys, the
   height of the transaction's block, the program that the penalty pays to, its fee in satoshis; then of each HTLC the direction, the expiry and the hash.

     cc $(pkg-config --cflags enforce) tower.c $(pkg-config --libs enforce) && ./a.out <known.txt */
#include <enforce.h>
#include <inttypes.h>
#include <stdio.h>
#include <stdlib.h>
#include <string.h>

enum { HTLCS = 966, OUTPUTS = 970, BYTES = 400000 };
static char text[2 * BYTES];
static uint8_t tx[BYTES], bytes[BYTES], spend[BYTES];
static enforce_htlc_row htlcs[HTLCS];
static enforce_claim_row claims[OUTPUTS];
static enforce_found_row found[OUTPUTS];
static enforce_slot_row slots[2 * OUTPUTS];
static enforce_signature_row signatures[OUTPUTS];
static enforce_other_row others[OUTPUTS];

/* The next word, as hexadecimal digits of at most so many bytes; how many there are. */
static size_t read_hex(uint8_t *to, size_t most) {
    if (scanf("%799999s", text) != 1 || strlen(text) > 2 * most) exit(2);
    for (size_t i = 0; i < strlen(text) / 2; i++)
        if (sscanf(text + 2 * i, "%2" SCNx8, to + i) != 1) exit(2);
    return strlen(text) / 2;
}

static void print_hex(const char *before, const uint8_t *from, size_t length) {
    for (printf("%s", before); length; length--) printf("%02x", *from++);
}

int main(void) {
    enforce_commitment c = {0};
    enforce_found_answer answer = {0};
    enforce_spend_answer made = {0};
    enforce_preimage_row none[1] = {0};
    uint8_t *keys[] = {c.revocation, c.delayed, c.local_htlc, c.remote_htlc, c.remote}, program[42];
    uint32_t height;
    uint64_t fee, value = 0;
    size_t count = 0, length = read_hex(tx, sizeof tx);
    if (enforce_abi() != ENFORCE_ABI || scanf("%" SCNu32 "%" SCNu16, &c.channel_type, &c.delay_blocks) != 2) return 2;
    for (int i = 0; i < 5; i++) read_hex(keys[i], 33);
    if (scanf("%" SCNu32, &height) != 1) return 2;
    size_t program_length = read_hex(program, sizeof program);
    if (scanf("%" SCNu64, &fee) != 1) return 2;
    for (; count < HTLCS && scanf("%" SCNu32 "%" SCNu32, &htlcs[count].direction, &htlcs[count].expiry_height) == 2; count++) read_hex(htlcs[count].hash, 32);
    uint32_t status = enforce_revoked(&c, htlcs, count, tx, length, height, claims, OUTPUTS, found, OUTPUTS, slots, 2 * OUTPUTS, others, OUTPUTS, bytes, BYTES - 42, &answer);
    if (status != ENFORCE_DONE) return printf("refused %s\n", enforce_name(status)), 1;
    for (size_t i = 0; i < answer.claims; value += claims[i++].value) printf("claim %" PRIu32 " kind %" PRIu32 " until %" PRIu64 "\n", claims[i].index, found[i].kind, found[i].deadline_height);
    for (size_t i = 0; i < answer.others; i++) printf("other %" PRIu32 "\n", others[i].index);
    memcpy(bytes + answer.bytes, program, program_length);
    enforce_output_row output = {.value = value > fee ? value - fee : 0, .script_at = answer.bytes, .script_length = program_length};
    status = enforce_unsigned_spend(claims, answer.claims, slots, answer.slots, &output, 1, none, 0, bytes, answer.bytes + program_length, spend, BYTES, signatures, OUTPUTS, &made);
    if (status != ENFORCE_DONE) return printf("refused %s\n", enforce_name(status)), 1;
    print_hex("tx ", spend, made.bytes);
    for (size_t i = 0; i < made.signatures; i++) printf("\nsign %zu %zu", signatures[i].input, signatures[i].item), print_hex(" ", signatures[i].key, 33), print_hex(" ", signatures[i].digest, 32);
    return puts(""), 0;
}
