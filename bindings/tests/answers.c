/* Makes the calls that standard input names, a line each, and prints what each answers.

     list HEX                                            the text of `enforce paths`, made of the rows
     text HEX                                            that text, as the library has it
     program HEX                                         the program of a script
     notes HEX                                           the notes on a script
     slots HEX PATH KEY,.. PREIMAGE,..                   the slots that a path of a script asks for
     form KIND REVOCATION REMOTE LOCAL PAYMENT_HASH EXPIRY DELAY the script of a form
     claim CLAIM                                         when a claim is due
     spend CLAIM;.. VALUE/SCRIPT;.. PREIMAGE,..          the transaction of claims, and the signatures that it lacks
     finish CLAIM;.. VALUE/SCRIPT;.. PREIMAGE,.. INPUT/ITEM/SIGNATURE,..  that transaction with these signatures
     revoked COMMITMENT HTLC;.. TX HEIGHT                what a revoked commitment lets its owner's peer claim of a transaction
     close WHOSE COMMITMENT HTLC;.. FEERATE PREIMAGE,.. TX HEIGHT  what one that is not revoked lets one claim

   A CLAIM is SCRIPT/PROGRAM/TXID/INDEX/VALUE/PATH/SLOT,.. and a slot is s=KEY, p=HASH or e=ITEM, or in an answer g=KEY:DIGEST:TX. A COMMITMENT is TYPE/DELAY/ and its five keys and both of the funding output with / between them,
   an HTLC DIRECTION/EXPIRY/HASH. What is empty, or not told, is a hyphen.

   answers             the answers. Each call is made again with buffers of just their lengths, and with each of them one shorter; each claim also with rows that name what is not there, and each signature
   answers --threads   the answers, made by four threads at once as well, which must be the same
   answers --refuse    the answers, after each allocation of each call was refused once, of one in 32 of those that find claims (with refusing.c)

   The last line of standard error counts the calls that were made besides. Status 1 where one of them answers otherwise. */
#include <enforce.h>
#include <pthread.h>
#include <stdarg.h>
#include <stdio.h>
#include <stdlib.h>
#include <string.h>

enum { PATHS = 64, FACTS = 4096, BYTES = 65536, SIGNATURES = 64, THREADS = 4, FILL = 0x5a };
/* Of the calls that find claims, which list the scripts of BOLT 3 each time, one in so many has its allocations refused. */
enum { REFUSED_ONE_IN = 32 };
enum { NOTES = 64, KEYS = 8 };
enum { CLAIMS = 8, SLOTS = 64, OUTPUTS = 8, PREIMAGES = 8, HTLCS = 16, FOUND = 16 };
/* The buffers of a call: paths or claims, rows of facts, of signatures or of outputs, bytes, slots, and the other outputs. */
enum { AT_PATHS, AT_ROWS, AT_BYTES, AT_SLOTS, AT_OTHERS, BUFFERS };

#ifdef REFUSING
extern _Thread_local long refused_number, asked;
#else
static _Thread_local long refused_number, asked;
#endif

/* How much room the buffers have, or how much there is to write into them. */
typedef struct {
    size_t of[BUFFERS];
} rooms;

/* What a call is given and leaves. */
typedef struct {
    enforce_claim_row claims[FOUND];
    enforce_found_row found[FOUND];
    enforce_slot_row slots[SLOTS];
    enforce_other_row others[FOUND];
    enforce_path_row paths[PATHS];
    enforce_fact_row facts[FACTS];
    enforce_signature_row signatures[SIGNATURES];
    enforce_note_row notes[NOTES];
    uint8_t bytes[BYTES];
    enforce_due due;
    rooms sizes;
    size_t number, row;
    uint64_t weight, fee_sat;
    uint32_t status, about;
    uint8_t txid[32], shown_txid[32];
} state;

/* A text that grows. */
typedef struct {
    char *start;
    size_t length, room;
} text;

/* One thread's work, and the calls that it made besides. */
typedef struct {
    char **lines;
    size_t count;
    text told;
    long short_calls, refused, wrong, finding;
    bool refuses;
} work;

static void fail(const char *what) {
    fprintf(stderr, "answers: %s\n", what);
    exit(2);
}

static void put(text *to, const char *format, ...) {
    va_list values;
    if (to->room - to->length < 4096) {
        to->room = 2 * to->room + 8192;
        to->start = realloc(to->start, to->room);
        if (!to->start) fail("no memory");
    }
    va_start(values, format);
    to->length += (size_t)vsnprintf(to->start + to->length, 4096, format, values);
    va_end(values);
}

static void put_hex(text *to, const uint8_t *bytes, size_t length) {
    for (size_t i = 0; i < length; i++) put(to, "%02x", bytes[i]);
}

static void put_text(text *to, const uint8_t *bytes, size_t length) {
    for (size_t i = 0; i < length; i++) put(to, "%c", bytes[i]);
}

/* Reads hexadecimal digits; the number of bytes. */
static size_t read_hex(const char *from, uint8_t *bytes, size_t room) {
    size_t length = strcmp(from, "-") ? strlen(from) / 2 : 0;
    unsigned byte;
    if (length > room) fail("too many digits");
    for (size_t i = 0; i < length; i++) {
        if (sscanf(from + 2 * i, "%2x", &byte) != 1) fail("no hexadecimal digits");
        bytes[i] = (uint8_t)byte;
    }
    return length;
}

static void put_status(text *to, const state *s) {
    put(to, "refused %s", enforce_name(s->status));
    switch (s->status) {
    case ENFORCE_BAD_OPCODE: case ENFORCE_TRUNCATED: case ENFORCE_UNDECIDED: case ENFORCE_UNMET: case ENFORCE_NOT_A_KEY: case ENFORCE_NO_SUCH_SLOT: case ENFORCE_ITEM_TOO_LONG: case ENFORCE_SLOT_OUT_OF_RANGE:
    case ENFORCE_NOT_A_COMMITMENT_KEY: case ENFORCE_NO_SUCH_DIRECTION: case ENFORCE_EXPIRY_TOO_LARGE: case ENFORCE_NO_SIGNATURE: case ENFORCE_SIGNATURE_OUT_OF_RANGE: case ENFORCE_NOT_DER: case ENFORCE_NOT_SIGHASH_ALL:
    case ENFORCE_NOT_ASKED: put(to, " %zu", s->number);
    }
    switch (s->about) {
    case ENFORCE_ABOUT_OUTPUT: put(to, " output %zu", s->row); break;
    case ENFORCE_ABOUT_CLAIM: put(to, " claim %zu", s->row); break;
    case ENFORCE_ABOUT_SIGNATURE: put(to, " input %zu", s->row);
    }
    put(to, "\n");
}

static void put_key(text *to, const state *s, const enforce_fact_row *row) {
    if (row->key_is_slot)
        put(to, "slot %zu", row->key_slot);
    else
        put_hex(to, s->bytes + row->bytes_at, row->bytes_length);
}

/* The slots and the keys of a choice; the rows that were read. */
static size_t put_choice(text *to, const state *s, const enforce_fact_row *row, size_t left) {
    size_t i = 0;
    const char *before = "";
    put(to, "assigned ");
    for (; i < left && row[i].kind == ENFORCE_FACT_CHOICE_SLOT; i++, before = ",") put(to, "%s%zu", before, row[i].slot);
    put(to, " ");
    for (before = ""; i < left && row[i].kind == ENFORCE_FACT_CHOICE_KEY; i++, before = ",") {
        put(to, "%s", before);
        put_key(to, s, row + i);
    }
    return i;
}

/* A fact as `enforce paths` prints it; the rows that were read. */
static size_t put_fact(text *to, const state *s, const enforce_fact_row *row, size_t left) {
    size_t rows = 1;
    const char *holds = row->holds ? " yes\n" : " no\n";
    put(to, "  ");
    switch (row->kind) {
    case ENFORCE_FACT_HASH: put(to, "hash %zu ", row->slot), put_hex(to, s->bytes + row->bytes_at, row->bytes_length), put(to, "%s", holds); break;
    case ENFORCE_FACT_SIZE: put(to, "size %zu %llu%s", row->slot, (unsigned long long)row->number, holds); break;
    case ENFORCE_FACT_TRUTH: put(to, "truth %zu%s", row->slot, holds); break;
    case ENFORCE_FACT_IS:
        put(to, row->bytes_length ? "is %zu " : "is %zu -", row->slot), put_hex(to, s->bytes + row->bytes_at, row->bytes_length), put(to, "%s", holds);
        break;
    case ENFORCE_FACT_KEY: put(to, "key %zu\n", row->slot); break;
    case ENFORCE_FACT_FORM: put(to, "form %zu\n", row->slot); break;
    case ENFORCE_FACT_SIGNED: put(to, "token %zu ", row->slot), put_key(to, s, row), put(to, "%s", holds); break;
    case ENFORCE_FACT_CHOICE: rows += put_choice(to, s, row + 1, left - 1), put(to, "%s", holds); break;
    case ENFORCE_FACT_LOCK: put(to, "lock %llu\n", (unsigned long long)row->number); break;
    case ENFORCE_FACT_AGE: put(to, "age %llu\n", (unsigned long long)row->number); break;
    default: fail("a row of no kind");
    }
    return rows;
}

static void put_path(text *to, const state *s, size_t k) {
    const enforce_path_row *row = s->paths + k;
    put(to, "path %zu arity %zu counted %zu height %zu lock ", k, row->arity, row->counted, row->height);
    put(to, row->has_lock ? "%llu age " : "- age ", (unsigned long long)row->lock);
    put(to, row->has_age ? "%llu\n" : "-\n", (unsigned long long)row->age);
    for (size_t i = 0; i < row->facts;) i += put_fact(to, s, s->facts + row->first_fact + i, row->facts - i);
}

/* A call with what it is given. */
typedef struct {
    const char *name;
    uint8_t bytes[BYTES];
    size_t length;
    enforce_form form;
    enforce_claim_row claims[CLAIMS];
    enforce_slot_row slots[SLOTS];
    enforce_output_row outputs[OUTPUTS];
    enforce_preimage_row preimages[PREIMAGES];
    enforce_signed_row signed_rows[SIGNATURES];
    enforce_key_row keys[KEYS];
    size_t path, keys_length, claims_length, slots_length, outputs_length, preimages_length, signed_length, htlcs_length;
    enforce_commitment commitment;
    enforce_htlc_row htlcs[HTLCS];
    uint32_t confirmed_height, whose, feerate_per_kw;
} request;

static bool is_named(const request *r, const char *name) { return !strcmp(r->name, name); }

static uint32_t call_spend(const request *r, state *s, const rooms *room) {
    enforce_spend_answer answer;
    memset(&answer, FILL, sizeof answer);
    uint32_t status = enforce_unsigned_spend(r->claims, r->claims_length, r->slots, r->slots_length, r->outputs, r->outputs_length, r->preimages, r->preimages_length, r->bytes, r->length, s->bytes,
                                             room->of[AT_BYTES], s->signatures, room->of[AT_ROWS], &answer);
    s->sizes = (rooms){{[AT_BYTES] = answer.bytes, [AT_ROWS] = answer.signatures}}, s->number = answer.number, s->row = answer.row, s->about = answer.about, s->weight = answer.weight, s->fee_sat = answer.fee_sat;
    memcpy(s->txid, answer.txid, sizeof s->txid), memcpy(s->shown_txid, answer.shown_txid, sizeof s->shown_txid);
    return status;
}

static uint32_t call_finish(const request *r, state *s, const rooms *room) {
    enforce_finish_answer answer;
    memset(&answer, FILL, sizeof answer);
    uint32_t status = enforce_finish(r->claims, r->claims_length, r->slots, r->slots_length, r->outputs, r->outputs_length, r->preimages, r->preimages_length, r->signed_rows, r->signed_length, r->bytes,
                                     r->length, s->bytes, room->of[AT_BYTES], &answer);
    s->sizes = (rooms){{[AT_BYTES] = answer.bytes}}, s->number = answer.number, s->row = answer.row, s->about = answer.about;
    memcpy(s->txid, answer.txid, sizeof s->txid), memcpy(s->shown_txid, answer.shown_txid, sizeof s->shown_txid);
    return status;
}

static bool finds(const request *r) { return is_named(r, "revoked") || is_named(r, "close"); }

static uint32_t call_found(const request *r, state *s, const rooms *room) {
    enforce_found_answer answer;
    memset(&answer, FILL, sizeof answer);
    uint32_t status;
    if (is_named(r, "revoked"))
        status = enforce_revoked(&r->commitment, r->htlcs, r->htlcs_length, r->bytes, r->length, r->confirmed_height, s->claims, room->of[AT_PATHS], s->found, room->of[AT_ROWS], s->slots,
                                 room->of[AT_SLOTS], s->others, room->of[AT_OTHERS], s->bytes, room->of[AT_BYTES], &answer);
    else
        status = enforce_close(r->whose, &r->commitment, r->htlcs, r->htlcs_length, r->feerate_per_kw, r->preimages, r->preimages_length, r->bytes, r->length, r->confirmed_height, s->claims,
                               room->of[AT_PATHS], s->found, room->of[AT_ROWS], s->slots, room->of[AT_SLOTS], s->others, room->of[AT_OTHERS], s->bytes, room->of[AT_BYTES], &answer);
    s->sizes = (rooms){{[AT_PATHS] = answer.claims, [AT_ROWS] = answer.claims, [AT_BYTES] = answer.bytes, [AT_SLOTS] = answer.slots, [AT_OTHERS] = answer.others}}, s->number = answer.number;
    return status;
}

static uint32_t call_notes(const request *r, state *s, const rooms *room) {
    enforce_notes_answer answer;
    memset(&answer, FILL, sizeof answer);
    uint32_t status = enforce_script_notes(r->bytes, r->length, s->notes, room->of[AT_ROWS], &answer);
    s->sizes = (rooms){{[AT_ROWS] = answer.notes}}, s->number = answer.number;
    return status;
}

static uint32_t call_slots(const request *r, state *s, const rooms *room) {
    enforce_slots_answer answer;
    memset(&answer, FILL, sizeof answer);
    uint32_t status = enforce_path_slots(r->bytes, r->length, r->path, r->keys, r->keys_length, r->preimages, r->preimages_length, s->slots, room->of[AT_SLOTS], s->bytes, room->of[AT_BYTES], &answer);
    s->sizes = (rooms){{[AT_SLOTS] = answer.slots, [AT_BYTES] = answer.bytes}}, s->number = answer.number;
    return status;
}

static uint32_t call_script(const request *r, state *s, const rooms *room) {
    enforce_answer answer;
    memset(&answer, FILL, sizeof answer);
    uint32_t status;
    if (is_named(r, "claim"))
        status = enforce_claim(r->claims, r->slots, r->slots_length, r->bytes, r->length, &s->due, &answer);
    else if (is_named(r, "list"))
        status = enforce_script_list(r->bytes, r->length, s->paths, room->of[AT_PATHS], s->facts, room->of[AT_ROWS], s->bytes, room->of[AT_BYTES], &answer);
    else if (is_named(r, "text"))
        status = enforce_script_text(r->bytes, r->length, s->bytes, room->of[AT_BYTES], &answer);
    else
        status = enforce_form_script(&r->form, s->bytes, room->of[AT_BYTES], &answer);
    s->sizes = (rooms){{[AT_PATHS] = answer.paths, [AT_ROWS] = answer.facts, [AT_BYTES] = answer.bytes}}, s->number = answer.number;
    return status;
}

/* Makes a call with so much room. */
static void call(const request *r, state *s, rooms room) {
    memset(s, FILL, sizeof *s);
    for (size_t i = 0; i < PATHS; i++) s->paths[i].has_lock = s->paths[i].has_age = false;
    for (size_t i = 0; i < FACTS; i++) s->facts[i].holds = s->facts[i].key_is_slot = false;
    for (size_t i = 0; i < FOUND; i++) s->found[i].has_deadline = false;
    s->row = 0, s->about = ENFORCE_ABOUT_ALL, s->weight = s->fee_sat = 0;
    memset(s->txid, 0, sizeof s->txid), memset(s->shown_txid, 0, sizeof s->shown_txid);
    asked = 0;
    s->status = is_named(r, "notes") ? call_notes(r, s, &room) : is_named(r, "slots") ? call_slots(r, s, &room) : is_named(r, "spend") ? call_spend(r, s, &room) : is_named(r, "finish") ? call_finish(r, s, &room) : finds(r) ? call_found(r, s, &room) : call_script(r, s, &room);
}

static rooms most(const request *r) {
    if (finds(r)) return (rooms){{FOUND, FOUND, BYTES, SLOTS, FOUND}};
    return (rooms){{PATHS, is_named(r, "spend") ? SIGNATURES : is_named(r, "notes") ? NOTES : FACTS, BYTES, SLOTS, 0}};
}

static bool has_room(const rooms *room, const rooms *sizes) {
    for (int i = 0; i < BUFFERS; i++)
        if (room->of[i] < sizes->of[i]) return false;
    return true;
}

static bool are_none(const rooms *sizes) { return has_room(&(rooms){{0}}, sizes); }

/* What is told of a transaction is 0 where there is none. */
static bool is_untold(const state *s) {
    static const uint8_t none[32];
    return are_none(&s->sizes) && !s->weight && !s->fee_sat && !memcmp(s->txid, none, sizeof none) && !memcmp(s->shown_txid, none, sizeof none);
}

static bool is_filled(const void *start, size_t length) {
    const uint8_t *bytes = start;
    for (size_t i = 0; i < length; i++)
        if (bytes[i] != FILL) return false;
    return true;
}

/* Nothing but the status and the answer was written. */
static bool is_left(const state *s) {
    if (!is_filled(s->notes, sizeof s->notes) || !is_filled(s->bytes, sizeof s->bytes) || !is_filled(s->signatures, sizeof s->signatures) || !is_filled(&s->due, sizeof s->due)) return false;
    if (!is_filled(s->claims, sizeof s->claims) || !is_filled(s->slots, sizeof s->slots) || !is_filled(s->others, sizeof s->others)) return false;
    for (size_t i = 0; i < FOUND; i++)
        if ((uint8_t)s->found[i].kind != FILL || (uint8_t)s->found[i].from_height != FILL || (uint8_t)s->found[i].deadline_height != FILL || s->found[i].has_deadline) return false;
    for (size_t i = 0; i < PATHS; i++)
        if (s->paths[i].arity != s->paths[PATHS - 1].arity || (uint8_t)s->paths[i].arity != FILL || s->paths[i].has_lock) return false;
    for (size_t i = 0; i < FACTS; i++)
        if ((uint8_t)s->facts[i].kind != FILL || (uint8_t)s->facts[i].slot != FILL || s->facts[i].holds) return false;
    return true;
}

static bool is_same_path(const enforce_path_row *a, const enforce_path_row *b) {
    return a->arity == b->arity && a->counted == b->counted && a->height == b->height && a->first_fact == b->first_fact && a->facts == b->facts && a->lock == b->lock && a->age == b->age
        && a->has_lock == b->has_lock && a->has_age == b->has_age;
}

static bool is_same_fact(const enforce_fact_row *a, const enforce_fact_row *b) {
    return a->kind == b->kind && a->holds == b->holds && a->key_is_slot == b->key_is_slot && a->slot == b->slot && a->key_slot == b->key_slot && a->number == b->number && a->bytes_at == b->bytes_at
        && a->bytes_length == b->bytes_length;
}

static bool is_same_signature(const enforce_signature_row *a, const enforce_signature_row *b) {
    return a->input == b->input && a->item == b->item && !memcmp(a->key, b->key, sizeof a->key) && !memcmp(a->digest, b->digest, sizeof a->digest);
}

static bool is_same_claim(const enforce_claim_row *a, const enforce_claim_row *b) {
    return !memcmp(a->txid, b->txid, sizeof a->txid) && a->index == b->index && a->value == b->value && a->script_at == b->script_at && a->script_length == b->script_length && a->program_at == b->program_at
        && a->program_length == b->program_length && a->path == b->path && a->first_slot == b->first_slot && a->slots == b->slots;
}

static bool is_same_slot(const enforce_slot_row *a, const enforce_slot_row *b) {
    return a->kind == b->kind && !memcmp(a->key, b->key, sizeof a->key) && !memcmp(a->hash, b->hash, sizeof a->hash) && a->bytes_at == b->bytes_at && a->bytes_length == b->bytes_length;
}

static bool is_same_found(const enforce_found_row *a, const enforce_found_row *b) {
    return a->kind == b->kind && a->has_deadline == b->has_deadline && a->from_height == b->from_height && a->deadline_height == b->deadline_height;
}

/* The same of what is found. */
static bool are_same_found(const state *a, const state *b) {
    for (size_t i = 0; i < FOUND; i++)
        if (!is_same_claim(&a->claims[i], &b->claims[i]) || !is_same_found(&a->found[i], &b->found[i])) return false;
    for (size_t i = 0; i < SLOTS; i++)
        if (!is_same_slot(&a->slots[i], &b->slots[i])) return false;
    return !memcmp(a->others, b->others, sizeof a->others);
}

/* The same of what is told of a transaction. */
static bool are_same_told(const state *a, const state *b) {
    return a->weight == b->weight && a->fee_sat == b->fee_sat && a->row == b->row && a->about == b->about && !memcmp(a->txid, b->txid, sizeof a->txid) && !memcmp(a->shown_txid, b->shown_txid, sizeof a->shown_txid);
}

/* The same bytes and rows, field by field: the padding of a row may be anything. */
static bool are_same(const state *a, const state *b) {
    for (size_t i = 0; i < PATHS; i++)
        if (!is_same_path(&a->paths[i], &b->paths[i])) return false;
    for (size_t i = 0; i < FACTS; i++)
        if (!is_same_fact(&a->facts[i], &b->facts[i])) return false;
    for (size_t i = 0; i < NOTES; i++)
        if (a->notes[i].kind != b->notes[i].kind || a->notes[i].at != b->notes[i].at) return false;
    for (size_t i = 0; i < SIGNATURES; i++)
        if (!is_same_signature(&a->signatures[i], &b->signatures[i])) return false;
    return a->due.height == b->due.height && a->due.sequence == b->due.sequence && !memcmp(a->bytes, b->bytes, BYTES) && are_same_found(a, b) && are_same_told(a, b);
}

/* Makes the call once more with one buffer shorter by one, or with just enough room. */
static void call_short(work *w, const request *r, const state *s, state *other, rooms room) {
    bool fits = has_room(&room, &s->sizes);
    call(r, other, room);
    bool same = !memcmp(&other->sizes, &s->sizes, sizeof s->sizes) && are_same_told(other, s);
    if (!same || other->status != (fits ? ENFORCE_DONE : ENFORCE_TOO_SMALL) || (!fits && !is_left(other))) w->wrong++;
    if (fits && !are_same(other, s)) w->wrong++;
    w->short_calls++;
}

static void call_again(work *w, const request *r, const state *s, state *other) {
    if (s->status != ENFORCE_DONE) return;
    call_short(w, r, s, other, s->sizes);
    for (int i = 0; i < BUFFERS; i++) {
        rooms shorter = s->sizes;
        if (!shorter.of[i]) continue;
        shorter.of[i]--;
        call_short(w, r, s, other, shorter);
    }
}

/* The call with a changed row is refused so, with this number, and writes nothing but its answer. */
static void call_changed(work *w, const request *changed, state *other, uint32_t status, size_t number) {
    call(changed, other, most(changed));
    if (other->status != status || !is_left(other) || !is_untold(other) || other->number != number) w->wrong++;
    w->short_calls++;
}

/* A number by which a range of this length from an index is not there, in a list of this length. */
static void put_out(work *w, const request *r, request *changed, state *other, size_t *field, size_t least, uint32_t status, size_t number) {
    const size_t beyond[] = {least, least + 1, SIZE_MAX - 1, SIZE_MAX};
    for (size_t i = 0; i < sizeof beyond / sizeof *beyond; i++) {
        *field = beyond[i];
        call_changed(w, changed, other, status, number);
    }
    *changed = *r;
}

/* Claims whose rows name what is not there. */
static void change_rows(work *w, const request *r, state *other) {
    request *changed = malloc(sizeof *changed);
    if (!changed) fail("no memory");
    *changed = *r;
    enforce_claim_row *c = changed->claims;
    put_out(w, r, changed, other, &c->script_at, r->length - c->script_length + 1, ENFORCE_OUT_OF_RANGE, 0);
    put_out(w, r, changed, other, &c->script_length, r->length - c->script_at + 1, ENFORCE_OUT_OF_RANGE, 0);
    put_out(w, r, changed, other, &c->program_at, r->length - c->program_length + 1, ENFORCE_OUT_OF_RANGE, 0);
    put_out(w, r, changed, other, &c->program_length, r->length - c->program_at + 1, ENFORCE_OUT_OF_RANGE, 0);
    put_out(w, r, changed, other, &c->first_slot, r->slots_length - c->slots + 1, ENFORCE_OUT_OF_RANGE, 0);
    put_out(w, r, changed, other, &c->slots, r->slots_length - c->first_slot + 1, ENFORCE_OUT_OF_RANGE, 0);
    for (size_t i = 0; i < c->slots; i++) {
        enforce_slot_row *slot = &changed->slots[c->first_slot + i];
        if (slot->kind == ENFORCE_SLOT_EXACT) {
            put_out(w, r, changed, other, &slot->bytes_at, r->length - slot->bytes_length + 1, ENFORCE_SLOT_OUT_OF_RANGE, i);
            put_out(w, r, changed, other, &slot->bytes_length, r->length - slot->bytes_at + 1, ENFORCE_SLOT_OUT_OF_RANGE, i);
        }
        slot->kind = 0, call_changed(w, changed, other, ENFORCE_NO_SUCH_SLOT, i);
        slot->kind = 4, call_changed(w, changed, other, ENFORCE_NO_SUCH_SLOT, i);
        *changed = *r;
    }
    free(changed);
}

/* Signatures whose rows name what is not there, or another place: refused with the place that lacks one, but for those before it. */
static void change_signed(work *w, const request *r, state *other) {
    request *changed = malloc(sizeof *changed);
    if (!changed) fail("no memory");
    for (size_t i = 0; i < r->signed_length; i++) {
        const enforce_signed_row *row = &r->signed_rows[i];
        const struct { size_t input, item, at, length; uint32_t status; } cases[] = {
            {row->input, row->item, r->length - row->bytes_length + 1, row->bytes_length, ENFORCE_SIGNATURE_OUT_OF_RANGE},
            {row->input, row->item, SIZE_MAX, 1, ENFORCE_SIGNATURE_OUT_OF_RANGE},
            {row->input, row->item, row->bytes_at, SIZE_MAX, ENFORCE_SIGNATURE_OUT_OF_RANGE},
            {row->input, row->item, row->bytes_at, row->bytes_length - 1, ENFORCE_NOT_DER},
            {row->input, row->item, row->bytes_at, 0, ENFORCE_NOT_DER},
            {row->input + 1, row->item, row->bytes_at, row->bytes_length, ENFORCE_NO_SIGNATURE},
            {row->input, SIZE_MAX, SIZE_MAX, 0, ENFORCE_NO_SIGNATURE},
        };
        for (size_t k = 0; k < sizeof cases / sizeof *cases; k++) {
            *changed = *r;
            changed->signed_rows[i] = (enforce_signed_row){cases[k].input, cases[k].item, cases[k].at, cases[k].length};
            call(changed, other, most(changed));
            if (other->status != cases[k].status || !is_left(other) || !is_untold(other) || other->about != ENFORCE_ABOUT_SIGNATURE || other->row != row->input || other->number != row->item) w->wrong++;
            w->short_calls++;
        }
    }
    free(changed);
}

/* Refuses each allocation in turn: the call says so, and writes nothing else. */
static void refuse_each(work *w, const request *r, state *other) {
    for (refused_number = 1;; refused_number++) {
        call(r, other, most(r));
        if (asked < refused_number) break;
        if (other->status != ENFORCE_NO_MEMORY || !is_left(other) || !is_untold(other) || other->number) w->wrong++;
        w->refused++;
    }
    refused_number = 0;
}

/* The next part of a text up to a separator, which is passed; none at its end. */
static char *part(char **rest, const char *separator) { return strtok_r(NULL, separator, rest); }

static char *first_part(char *whole, const char *separator, char **rest) { return strtok_r(whole, separator, rest); }

static char *word(char **rest, const char *separator) {
    char *found = part(rest, separator);
    if (!found) fail("a word is missing");
    return found;
}

/* Adds bytes to those that rows refer to; where they begin. */
static size_t put_bytes(request *r, const char *digits, size_t *length) {
    size_t at = r->length;
    *length = read_hex(digits, r->bytes + at, BYTES - at);
    r->length += *length;
    return at;
}

static void read_slot(request *r, const char *text) {
    enforce_slot_row *slot = &r->slots[r->slots_length++];
    if (r->slots_length > SLOTS) fail("too many slots");
    switch (text[0]) {
    case 's': slot->kind = ENFORCE_SLOT_SIGNATURE, read_hex(text + 2, slot->key, 33); break;
    case 'p': slot->kind = ENFORCE_SLOT_PREIMAGE, read_hex(text + 2, slot->hash, 32); break;
    default: slot->kind = ENFORCE_SLOT_EXACT, slot->bytes_at = put_bytes(r, text + 2, &slot->bytes_length);
    }
}

static void read_claim(request *r, char *text) {
    char *rest, *slots;
    enforce_claim_row *c = &r->claims[r->claims_length++];
    if (r->claims_length > CLAIMS) fail("too many claims");
    c->script_at = put_bytes(r, first_part(text, "/", &rest), &c->script_length);
    c->program_at = put_bytes(r, word(&rest, "/"), &c->program_length);
    read_hex(word(&rest, "/"), c->txid, 32);
    c->index = (uint32_t)strtoul(word(&rest, "/"), NULL, 10);
    c->value = strtoull(word(&rest, "/"), NULL, 10);
    c->path = strtoull(word(&rest, "/"), NULL, 10);
    c->first_slot = r->slots_length;
    slots = word(&rest, "/");
    if (!strcmp(slots, "-")) return;
    for (char *it = first_part(slots, ",", &rest); it; it = part(&rest, ",")) read_slot(r, it);
    c->slots = r->slots_length - c->first_slot;
}

static void read_output(request *r, char *text) {
    char *rest;
    enforce_output_row *output = &r->outputs[r->outputs_length++];
    if (r->outputs_length > OUTPUTS) fail("too many outputs");
    output->value = strtoull(first_part(text, "/", &rest), NULL, 10);
    output->script_at = put_bytes(r, word(&rest, "/"), &output->script_length);
}

static void read_signed(request *r, char *text) {
    char *rest;
    if (r->signed_length == SIGNATURES) fail("too many signatures");
    enforce_signed_row *row = &r->signed_rows[r->signed_length++];
    row->input = strtoull(first_part(text, "/", &rest), NULL, 10);
    row->item = strtoull(word(&rest, "/"), NULL, 10);
    row->bytes_at = put_bytes(r, word(&rest, "/"), &row->bytes_length);
}

static void read_preimage(request *r, char *text) {
    if (r->preimages_length == PREIMAGES) fail("too many preimages");
    read_hex(text, r->preimages[r->preimages_length++].bytes, 32);
}

static void read_key(request *r, char *text) {
    if (r->keys_length == KEYS) fail("too many keys");
    read_hex(text, r->keys[r->keys_length++].bytes, 33);
}

/* Reads each part of a list. */
static void read_each(request *r, char *list, const char *separator, void (*read)(request *, char *)) {
    char *rest;
    if (!strcmp(list, "-")) return;
    for (char *it = first_part(list, separator, &rest); it; it = part(&rest, separator)) read(r, it);
}

static void read_form(request *r, char **rest) {
    const char *words[7];
    for (int i = 0; i < 7; i++)
        if (!(words[i] = strtok_r(NULL, " ", rest))) fail("a form has seven words");
    r->form.kind = (uint32_t)strtoul(words[0], NULL, 10);
    read_hex(words[1], r->form.revocation, 33), read_hex(words[2], r->form.remote, 33), read_hex(words[3], r->form.local, 33);
    read_hex(words[4], r->form.payment_hash, 32);
    r->form.expiry_height = (uint32_t)strtoul(words[5], NULL, 10);
    r->form.delay_blocks = (uint16_t)strtoul(words[6], NULL, 10);
}

static void read_htlc(request *r, char *text) {
    char *rest;
    enforce_htlc_row *htlc = &r->htlcs[r->htlcs_length++];
    if (r->htlcs_length > HTLCS) fail("too many HTLCs");
    htlc->direction = (uint32_t)strtoul(first_part(text, "/", &rest), NULL, 10);
    htlc->expiry_height = (uint32_t)strtoul(word(&rest, "/"), NULL, 10);
    read_hex(word(&rest, "/"), htlc->hash, 32);
}

static void read_commitment(request *r, char *text) {
    char *rest;
    enforce_commitment *c = &r->commitment;
    uint8_t *keys[] = {c->revocation, c->delayed, c->local_htlc, c->remote_htlc, c->remote};
    c->channel_type = (uint32_t)strtoul(first_part(text, "/", &rest), NULL, 10);
    c->delay_blocks = (uint16_t)strtoul(word(&rest, "/"), NULL, 10);
    for (int i = 0; i < 5; i++) read_hex(word(&rest, "/"), keys[i], 33);
    c->has_funding_keys = read_hex(word(&rest, "/"), c->own_funding, 33) != 0;
    read_hex(word(&rest, "/"), c->peers_funding, 33);
}

static void put_digits(text *to, const uint8_t *bytes, size_t length) {
    if (!length) put(to, "-");
    put_hex(to, bytes, length);
}

static void put_slots(text *to, const state *s, size_t first, size_t count) {
    for (size_t i = 0; i < count; i++) {
        const enforce_slot_row *slot = s->slots + first + i;
        if (i) put(to, ",");
        switch (slot->kind) {
        case ENFORCE_SLOT_SIGNATURE: put(to, "s="), put_hex(to, slot->key, sizeof slot->key); break;
        case ENFORCE_SLOT_PREIMAGE: put(to, "p="), put_hex(to, slot->hash, sizeof slot->hash); break;
        case ENFORCE_SLOT_GIVEN:
            put(to, "g="), put_hex(to, slot->key, sizeof slot->key), put(to, ":"), put_hex(to, slot->hash, sizeof slot->hash);
            put(to, ":"), put_hex(to, s->bytes + slot->bytes_at, slot->bytes_length);
            break;
        default: put(to, "e="), put_digits(to, s->bytes + slot->bytes_at, slot->bytes_length);
        }
    }
}

/* A claim as a line has it. */
static void put_claim(text *to, const state *s, const enforce_claim_row *c) {
    put_digits(to, s->bytes + c->script_at, c->script_length), put(to, "/"), put_digits(to, s->bytes + c->program_at, c->program_length), put(to, "/"), put_hex(to, c->txid, sizeof c->txid);
    put(to, "/%u/%llu/%zu/", c->index, (unsigned long long)c->value, c->path);
    put_slots(to, s, c->first_slot, c->slots), put(to, "\n");
}

static void put_notes(text *to, const state *s) {
    put(to, "notes\n");
    for (size_t i = 0; i < s->sizes.of[AT_ROWS]; i++) put(to, "note %u %zu\n", s->notes[i].kind, s->notes[i].at);
}

static void put_found(text *to, const state *s) {
    for (size_t i = 0; i < s->sizes.of[AT_PATHS]; i++) {
        const enforce_found_row *row = s->found + i;
        put(to, "found %u %llu ", row->kind, (unsigned long long)row->from_height);
        put(to, row->has_deadline ? "%llu " : "- ", (unsigned long long)row->deadline_height);
        put_claim(to, s, s->claims + i);
    }
    put(to, "others");
    for (size_t i = 0; i < s->sizes.of[AT_OTHERS]; i++) put(to, " %u:%u", s->others[i].index, s->others[i].kind);
    put(to, "\n");
}

static void put_tx(text *to, const state *s) { put(to, "tx "), put_hex(to, s->bytes, s->sizes.of[AT_BYTES]), put(to, "\n"); }

static void put_ids(text *to, const state *s) { put(to, "txid "), put_hex(to, s->txid, sizeof s->txid), put(to, " shown "), put_hex(to, s->shown_txid, sizeof s->shown_txid), put(to, "\n"); }

static void put_spend(text *to, const state *s) {
    put_tx(to, s), put(to, "weight %llu fee %llu\n", (unsigned long long)s->weight, (unsigned long long)s->fee_sat), put_ids(to, s);
    for (size_t i = 0; i < s->sizes.of[AT_ROWS]; i++) {
        const enforce_signature_row *row = s->signatures + i;
        put(to, "sign %zu %zu ", row->input, row->item), put_hex(to, row->key, sizeof row->key);
        put(to, " "), put_hex(to, row->digest, sizeof row->digest), put(to, "\n");
    }
}

static void tell(work *w, const request *r, state *s, state *other) {
    text *to = &w->told;
    if (is_named(r, "program")) {
        uint8_t program[34];
        enforce_script_program(r->bytes, r->length, &program);
        put_hex(to, program, sizeof program), put(to, "\n");
        return;
    }
    if (w->refuses && (!finds(r) || w->finding++ % REFUSED_ONE_IN == 0)) refuse_each(w, r, other);
    call(r, s, most(r));
    if (s->status != ENFORCE_DONE) {
        put_status(to, s);
    } else if (is_named(r, "claim")) {
        put(to, "due %llu %u\n", (unsigned long long)s->due.height, s->due.sequence);
    } else if (is_named(r, "notes")) {
        put_notes(to, s);
    } else if (is_named(r, "slots")) {
        if (!s->sizes.of[AT_SLOTS]) put(to, "-");
        put_slots(to, s, 0, s->sizes.of[AT_SLOTS]), put(to, "\n");
    } else if (is_named(r, "spend")) {
        put_spend(to, s);
    } else if (is_named(r, "finish")) {
        put_tx(to, s), put_ids(to, s);
    } else if (finds(r)) {
        put_found(to, s);
    } else if (is_named(r, "list")) {
        put(to, "paths %zu\n", s->sizes.of[AT_PATHS]);
        for (size_t k = 0; k < s->sizes.of[AT_PATHS]; k++) put_path(to, s, k);
    } else if (is_named(r, "text")) {
        put_text(to, s->bytes, s->sizes.of[AT_BYTES]);
    } else {
        put_hex(to, s->bytes, s->sizes.of[AT_BYTES]), put(to, "\n");
    }
    if (w->refuses) return;
    call_again(w, r, s, other);
    if (is_named(r, "claim") && s->status == ENFORCE_DONE) change_rows(w, r, other);
    if (is_named(r, "finish") && s->status == ENFORCE_DONE) change_signed(w, r, other);
}

static void read_request(request *r, char *line) {
    char *rest;
    *r = (request){.name = strtok_r(line, " ", &rest)};
    if (is_named(r, "form")) {
        read_form(r, &rest);
    } else if (is_named(r, "slots")) {
        r->length = read_hex(word(&rest, " "), r->bytes, sizeof r->bytes);
        r->path = strtoull(word(&rest, " "), NULL, 10);
        char *keys = word(&rest, " "), *preimages = word(&rest, " ");
        read_each(r, keys, ",", read_key);
        read_each(r, preimages, ",", read_preimage);
    } else if (is_named(r, "claim")) {
        read_claim(r, word(&rest, " "));
    } else if (is_named(r, "spend") || is_named(r, "finish")) {
        char *claims = word(&rest, " "), *outputs = word(&rest, " "), *preimages = word(&rest, " "), *signatures = is_named(r, "finish") ? word(&rest, " ") : "-";
        read_each(r, claims, ";", read_claim);
        read_each(r, outputs, ";", read_output);
        read_each(r, preimages, ",", read_preimage);
        read_each(r, signatures, ",", read_signed);
    } else if (finds(r)) {
        char *preimages = "-";
        if (is_named(r, "close")) r->whose = (uint32_t)strtoul(word(&rest, " "), NULL, 10);
        char *commitment = word(&rest, " "), *htlcs = word(&rest, " ");
        if (is_named(r, "close")) r->feerate_per_kw = (uint32_t)strtoul(word(&rest, " "), NULL, 10), preimages = word(&rest, " ");
        r->length = read_hex(word(&rest, " "), r->bytes, sizeof r->bytes);
        r->confirmed_height = (uint32_t)strtoul(word(&rest, " "), NULL, 10);
        read_commitment(r, commitment);
        read_each(r, htlcs, ";", read_htlc);
        read_each(r, preimages, ",", read_preimage);
    } else {
        r->length = read_hex(word(&rest, " "), r->bytes, sizeof r->bytes);
    }
}

static void *answer_all(void *given) {
    work *w = given;
    state *s = malloc(sizeof *s), *other = malloc(sizeof *other);
    request *r = malloc(sizeof *r);
    if (!s || !other || !r) fail("no memory");
    for (size_t i = 0; i < w->count; i++) {
        char *line = strdup(w->lines[i]);
        read_request(r, line);
        tell(w, r, s, other);
        put(&w->told, ".\n");
        free(line);
    }
    free(s), free(other), free(r);
    return NULL;
}

static char **read_lines(size_t *count) {
    static char line[32768];
    char **lines = NULL;
    for (*count = 0; fgets(line, sizeof line, stdin); ++*count) {
        line[strcspn(line, "\n")] = 0;
        lines = realloc(lines, (*count + 1) * sizeof *lines);
        if (!lines) fail("no memory");
        lines[*count] = strdup(line);
    }
    return lines;
}

int main(int argc, char **argv) {
    work first = {0}, others[THREADS];
    pthread_t threads[THREADS];
    bool by_threads = argc > 1 && !strcmp(argv[1], "--threads");
    first.refuses = argc > 1 && !strcmp(argv[1], "--refuse");
    if (enforce_abi() != ENFORCE_ABI) fail("the library is of another version than the header");
    first.lines = read_lines(&first.count);
    answer_all(&first);
    if (first.told.length) fwrite(first.told.start, 1, first.told.length, stdout);
    for (int i = 0; by_threads && i < THREADS; i++) {
        others[i] = (work){.lines = first.lines, .count = first.count};
        if (pthread_create(&threads[i], NULL, answer_all, &others[i])) fail("no thread");
    }
    for (int i = 0; by_threads && i < THREADS; i++) {
        pthread_join(threads[i], NULL);
        if (others[i].told.length != first.told.length || memcmp(others[i].told.start, first.told.start, first.told.length)) first.wrong++;
        first.wrong += others[i].wrong, first.short_calls += others[i].short_calls;
        free(others[i].told.start);
    }
    fprintf(stderr, "lengths %ld refused %ld wrong %ld\n", first.short_calls, first.refused, first.wrong);
    for (size_t i = 0; i < first.count; i++) free(first.lines[i]);
    free(first.lines), free(first.told.start);
    return first.wrong != 0;
}
