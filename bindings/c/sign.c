/* From a to_local script to the signed transaction that takes its output after the delay. Reads words from standard input: the secret of local_delayedpubkey, revocationpubkey, to_self_delay; the output's transaction
   as nodes show its id, its index, its value in satoshis; the fee in satoshis, and the program that is paid to. Signs by libsecp256k1.

     cc $(pkg-config --cflags enforce libsecp256k1) sign.c $(pkg-config --libs enforce libsecp256k1) && ./a.out <words.txt */
#include <enforce.h>
#include <inttypes.h>
#include <secp256k1.h>
#include <stdio.h>
#include <stdlib.h>
#include <string.h>

static void must(const char *what, uint32_t status) {
    if (status == ENFORCE_DONE) return;
    fprintf(stderr, "%s: %s: %s\n", what, enforce_name(status), enforce_sentence(status));
    exit(1);
}

/* The next word, as hexadecimal digits of at least and at most this many bytes; how many there are. */
static size_t read_hex(uint8_t *to, size_t least, size_t most) {
    char text[129];
    size_t length = scanf("%128s", text) == 1 ? strlen(text) : 0;
    if (length % 2 || length < 2 * least || length > 2 * most || strspn(text, "0123456789abcdef") != length) exit(2);
    for (size_t i = 0; i < length / 2; i++) sscanf(text + 2 * i, "%2" SCNx8, to + i);
    return length / 2;
}

int main(void) {
    uint8_t secret[32], txid[32], bytes[1024] = {0}, constants[1024] = {0}, tx[1024] = {0}; uint64_t fee; size_t length = 33;
    secp256k1_context *context = secp256k1_context_create(SECP256K1_CONTEXT_SIGN); secp256k1_pubkey key; secp256k1_ecdsa_signature signature;
    enforce_form form = {.kind = ENFORCE_FORM_TO_LOCAL}; enforce_claim_row claim = {.program_length = 34};
    enforce_slot_row slots[4] = {0}; enforce_key_row own = {0}; enforce_slots_answer prepared = {0};
    enforce_path_row paths[64] = {0}; enforce_fact_row facts[64] = {0}; enforce_preimage_row none[1] = {0}; enforce_signature_row missing = {0};
    enforce_answer answer = {0}; enforce_due due = {0}; enforce_spend_answer made = {0}; enforce_finish_answer finished = {0};
    read_hex(secret, 32, 32), read_hex(form.revocation, 33, 33);
    if (enforce_abi() != ENFORCE_ABI || scanf("%" SCNu16, &form.delay_blocks) != 1 || !secp256k1_ec_pubkey_create(context, &key, secret)) return 2;
    secp256k1_ec_pubkey_serialize(context, form.local, &length, &key, SECP256K1_EC_COMPRESSED), memcpy(own.bytes, form.local, 33);
    read_hex(txid, 32, 32);
    for (int i = 0; i < 32; i++) claim.txid[i] = txid[31 - i]; /* the hash's own byte order */
    if (scanf("%" SCNu32 "%" SCNu64 "%" SCNu64, &claim.index, &claim.value, &fee) != 3 || fee > claim.value) return 2;
    must("the form", enforce_form_script(&form, bytes, 256, &answer));
    claim.script_length = claim.program_at = answer.bytes;
    enforce_script_program(bytes, answer.bytes, (uint8_t(*)[34])(bytes + answer.bytes));
    must("the listing", enforce_script_list(bytes, claim.script_length, paths, 64, facts, 64, constants, sizeof constants, &answer));
    while (claim.path < answer.paths && !paths[claim.path].has_age) claim.path++; /* the path after the delay */
    enforce_output_row output = {claim.value - fee, claim.program_at + 34, read_hex(bytes + claim.program_at + 34, 2, 42)};
    size_t end = output.script_at + output.script_length;
    must("the slots", enforce_path_slots(bytes, claim.script_length, claim.path, &own, 1, none, 0, slots, 4, bytes + end, sizeof bytes - end, &prepared));
    for (size_t i = 0; i < prepared.slots; i++) slots[i].bytes_at += end;
    claim.slots = prepared.slots, end += prepared.bytes;
    must("the claim", enforce_claim(&claim, slots, claim.slots, bytes, end, &due, &answer));
    fprintf(stderr, "can be mined %" PRIu32 " blocks after its output\n", due.sequence);
    must("the spend", enforce_unsigned_spend(&claim, 1, slots, claim.slots, &output, 1, none, 0, bytes, end, tx, sizeof tx, &missing, 1, &made));
    if (!secp256k1_ecdsa_sign(context, &signature, missing.digest, secret, NULL, NULL)) return 2;
    secp256k1_ecdsa_signature_serialize_der(context, bytes + end, (length = 72, &length), &signature), bytes[end + length] = 1; /* SIGHASH_ALL */
    enforce_signed_row row = {missing.input, missing.item, end, length + 1};
    must("the transaction", enforce_finish(&claim, 1, slots, claim.slots, &output, 1, none, 0, &row, 1, bytes, end + length + 1, tx, sizeof tx, &finished));
    for (size_t i = 0; i < finished.bytes; i++) printf("%02x", tx[i]);
    return puts(""), 0;
}
