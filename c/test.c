/* What the declarations cannot say: that the calls give the same bits in every float environment and give the caller's back, that each number
 * arrives where it is meant to, that a parked file is as the header lays it out, that peaks are of the samples handed back, that an audition is the
 * block and leaves the bank, what the third axis and the chord comb do, and that the stack suffices. Prints `c: N checks` and answers 0, or says which
 * failed. */
#define _GNU_SOURCE
#include "sentivolus.h"
#include <math.h>
#include <pthread.h>
#include <stdio.h>
#include <string.h>

enum { VOICES = 2, CHANNELS = 2, SLOTS = VOICES * CHANNELS, FRAMES = 256, RING = 8192 };

/* The last code, and the last of those that can be parked. */
enum { CODES = SENTIVOLUS_CHORD_COMB, PARKED_CODES = SENTIVOLUS_K35 };

/* A parked file's blocks: their bytes, the words that each holds, and how many there are of these voices. */
enum { BYTES = 512, HELD = 126, BLOCKS = 2 + VOICES + SLOTS + SLOTS * ((RING + HELD - 1) / HELD), FILE_LEN = BYTES * BLOCKS };

static int checks, failures;

static void check(int holds, const char *what, int which)
{
    checks++;
    if (!holds) {
        failures++;
        printf("FAILED: %s (%d)\n", what, which);
    }
}

/* A bank with the lists of four slots at 48,000 Hz, a block's audio, its counts with one more after them, and a parked file; and the scratch, the audio
 * and the counts of an audition. */
typedef struct session {
    float targets[SENTIVOLUS_TARGETS * VOICES], records[SENTIVOLUS_RECORD * SLOTS], delay[RING * SLOTS], audio[FRAMES * SLOTS];
    float scratch_targets[SENTIVOLUS_TARGETS * VOICES], scratch_records[SENTIVOLUS_RECORD * SLOTS], scratch_delay[RING * SLOTS], heard[FRAMES * SLOTS];
    uint32_t counts[SLOTS + 1], heard_counts[SLOTS + 1];
    uint8_t file[FILE_LEN];
    sentivolus_setup setup;
    sentivolus_bank bank, scratch;
    sentivolus_input input;
} session;

static float pitch[FRAMES * VOICES];
static session usual, other;

static sentivolus_design bells(void)
{
    sentivolus_design d = sentivolus_new_design();
    for (int s = 0; s < SENTIVOLUS_STATES; s++)
        for (int p = 0; p < SENTIVOLUS_POINTS; p++) {
            sentivolus_design_point bell = {SENTIVOLUS_BELL, 90.0f * (float)(p + s + 1), 1.0f + (float)p, 3.0f, 0.0f};
            d.points[s][p] = bell;
        }
    return d;
}

/* Lends a bank these lists, full of a number, but z's 0, so that it can be parked. */
static void lend(sentivolus_bank *b, float *targets, float *records, float *delay, float full, size_t cursor)
{
    sentivolus_bank lent = {targets, SENTIVOLUS_TARGETS * VOICES, records, SENTIVOLUS_RECORD * SLOTS, delay, RING * SLOTS, cursor};
    float *lists[] = {targets, records, delay};
    size_t lengths[] = {lent.targets_len, lent.records_len, lent.delay_len};
    for (int l = 0; l < 3; l++)
        for (size_t i = 0; i < lengths[l]; i++)
            lists[l][i] = full;
    for (int voice = 0; voice < VOICES; voice++)
        targets[SENTIVOLUS_TARGETS * voice + SENTIVOLUS_TARGET_Z] = 0;
    for (int slot = 0; slot < SLOTS; slot++)
        records[SENTIVOLUS_RECORD * slot + SENTIVOLUS_RECORD_Z] = 0;
    *b = lent;
}

/* A major chord. */
static const sentivolus_chord major = {3, {0, 4.0f / 12, 7.0f / 12, 0, 0, 0, 0, 0}};

/* Lists full of 0.5, a scratch of 0.25, counts and a file of 7; noise, loud for voice 0 and about the smallest normal number for voice 1. A chord comb
 * has its chord. */
static void make(session *t, uint32_t code)
{
    uint32_t noise = 1;
    lend(&t->bank, t->targets, t->records, t->delay, 0.5f, 99);
    lend(&t->scratch, t->scratch_targets, t->scratch_records, t->scratch_delay, 0.25f, 98);
    for (int i = 0; i <= SLOTS; i++)
        t->counts[i] = t->heard_counts[i] = 7;
    memset(t->file, 7, FILE_LEN);
    for (int i = 0; i < FRAMES * SLOTS; i++) {
        noise = 1664525u * noise + 1013904223u;
        t->audio[i] = t->heard[i] = ldexpf((float)(int32_t)noise, i % VOICES == 0 ? -32 : -32 - 124);
    }
    t->setup = sentivolus_new_setup(code, 48000.0f, VOICES, CHANNELS);
    if (code == SENTIVOLUS_CHORD_COMB)
        t->setup.chord = major;
    t->input.frames = FRAMES;
    t->input.pitch = pitch;
    t->input.pitch_len = FRAMES * VOICES;
    t->input.steered = true;
    t->input.x = t->input.y = pitch;
    t->input.x_len = t->input.y_len = FRAMES * VOICES;
}

/* Lists full of NaN, and another setup and cursor: nothing that a restored bank could lean on. */
static void spoil(session *t)
{
    memset(t->targets, 255, sizeof t->targets);
    memset(t->records, 255, sizeof t->records);
    memset(t->delay, 255, sizeof t->delay);
    t->setup = sentivolus_new_setup(SENTIVOLUS_BUZZ_MORPH, 8000.0f, 1, 1);
    t->bank.cursor = 5;
}

/* The session's block with its whole audio and as many counts. */
static sentivolus_refusal render(session *t, size_t counts)
{
    return sentivolus_bank_block(&t->setup, &t->bank, &t->input, t->audio, FRAMES * SLOTS, t->counts, counts);
}

/* Its audition in the session's scratch, likewise. */
static sentivolus_refusal audition(session *t, size_t counts)
{
    return sentivolus_bank_audition(&t->setup, &t->bank, &t->input, &t->scratch, t->heard, FRAMES * SLOTS, t->heard_counts, counts);
}

static sentivolus_params loud(void)
{
    sentivolus_params p = sentivolus_default_params();
    p.resonance = 0.7f;
    p.drive = 0.4f;
    p.saturation = 0.3f;
    p.character = 0.35f;
    p.stereo_offset = 1.7f;
    p.mix = 0.9f;
    return p;
}

/* A whole sitting in the float environment of `mxcsr`, which the calls must leave as it is. A chord comb is not parked. */
static void run(session *t, uint32_t code, unsigned mxcsr)
{
    sentivolus_design design = bells();
    sentivolus_params params = loud();
    unsigned before = _mm_getcsr();
    make(t, code);
    _mm_setcsr(mxcsr);
    t->setup.table = sentivolus_design_table(&design);
    sentivolus_refusal opened = sentivolus_bank_open(&t->setup, &t->bank);
    sentivolus_refusal set = sentivolus_bank_set(&t->setup, &t->bank, 1, &params);
    sentivolus_refusal started = sentivolus_bank_start(&t->setup, &t->bank, 1);
    sentivolus_refusal auditioned = audition(t, SLOTS);
    sentivolus_refusal rendered = render(t, SLOTS);
    size_t file_len = sentivolus_file_len(&t->setup);
    sentivolus_refusal parked = sentivolus_bank_park(&t->setup, &t->bank, t->file, file_len), read = SENTIVOLUS_ACCEPTED, restored = SENTIVOLUS_ACCEPTED;
    if (code <= PARKED_CODES) {
        spoil(t);
        read = sentivolus_file_setup(t->file, file_len, &t->setup, NULL);
        restored = sentivolus_bank_restore(t->file, file_len, &t->setup, &t->bank);
    }
    unsigned after = _mm_getcsr();
    _mm_setcsr(before);
    check((after & ~SENTIVOLUS_MXCSR_FLAGS) == (mxcsr & ~SENTIVOLUS_MXCSR_FLAGS), "the caller's MXCSR comes back", (int)mxcsr);
    check(!opened && !set && !started && !auditioned && !rendered && !read && !restored, "every call is accepted", (int)code);
    check(parked == (code <= PARKED_CODES ? SENTIVOLUS_ACCEPTED : SENTIVOLUS_REFUSED_UNPARKABLE), "a park of every code but the chord comb's", (int)code);
}

static int same_setup(const sentivolus_setup *a, const sentivolus_setup *b)
{
    return a->code == b->code && a->rate == b->rate && a->reference == b->reference && a->voices == b->voices && a->channels == b->channels &&
           a->clean == b->clean && a->table.active == b->table.active && a->table.gain == b->table.gain &&
           a->table.three_axes == b->table.three_axes && !memcmp(a->table.sections, b->table.sections, sizeof a->table.sections) &&
           a->chord.count == b->chord.count && !memcmp(a->chord.offsets, b->chord.offsets, sizeof a->chord.offsets);
}

/* The same lists, setup and cursor of two banks. */
static int same_bank(const session *a, const session *b)
{
    return !memcmp(a->targets, b->targets, sizeof a->targets) && !memcmp(a->records, b->records, sizeof a->records) &&
           !memcmp(a->delay, b->delay, sizeof a->delay) && same_setup(&a->setup, &b->setup) && a->bank.cursor == b->bank.cursor;
}

static int same_scratch(const session *a, const session *b)
{
    return !memcmp(a->scratch_targets, b->scratch_targets, sizeof a->scratch_targets) &&
           !memcmp(a->scratch_records, b->scratch_records, sizeof a->scratch_records) &&
           !memcmp(a->scratch_delay, b->scratch_delay, sizeof a->scratch_delay) && a->scratch.cursor == b->scratch.cursor;
}

static int same(const session *a, const session *b)
{
    return same_bank(a, b) && same_scratch(a, b) && !memcmp(a->audio, b->audio, sizeof a->audio) && !memcmp(a->heard, b->heard, sizeof a->heard) &&
           !memcmp(a->counts, b->counts, sizeof a->counts) && !memcmp(a->heard_counts, b->heard_counts, sizeof a->heard_counts) &&
           !memcmp(a->file, b->file, FILE_LEN);
}

/* Whether the session's block gave what its audition did: audio, counts and all of the bank. */
static int as_heard(const session *t)
{
    return !memcmp(t->heard, t->audio, sizeof t->audio) && !memcmp(t->heard_counts, t->counts, sizeof t->counts) &&
           !memcmp(t->scratch_targets, t->targets, t->bank.targets_len * sizeof(float)) &&
           !memcmp(t->scratch_records, t->records, t->bank.records_len * sizeof(float)) &&
           !memcmp(t->scratch_delay, t->delay, t->bank.delay_len * sizeof(float)) && t->scratch.cursor == t->bank.cursor;
}

/* The archive's block by itself, in the float environment of `mxcsr`. */
static void raw_block(session *t, uint32_t code, unsigned mxcsr)
{
    sentivolus_params p = loud();
    const sentivolus_setup *s = &t->setup;
    const sentivolus_bank *b = &t->bank;
    size_t cursor = 99, rendered = 0;
    make(t, code);
    sentivolus_bank_open(s, &t->bank);
    sentivolus_bank_set(s, &t->bank, 1, &p);
    unsigned before = _mm_getcsr();
    _mm_setcsr(mxcsr);
    sentivolus_block(s->code, s->rate, s->reference, s->voices, s->channels, s->clean,
                     s->table.active, s->table.three_axes, s->table.sections, s->table.gain, s->chord.count, s->chord.offsets, &cursor,
                     b->targets, b->targets_len, b->records, b->records_len, b->delay, b->delay_len, FRAMES, pitch, FRAMES * VOICES, false,
                     NULL, 0, NULL, 0, t->audio, FRAMES * SLOTS, t->counts, SLOTS, &rendered);
    _mm_setcsr(before);
}

/* FTZ and DAZ; rounding down, up and to zero; every exception trapped; all of it. */
static const unsigned modes[] = {0x9FC0, 0x3F80, 0x5F80, 0x7F80, 0x0000, 0xE040};

static void float_environments(void)
{
    int flushed = 0, rounded = 0;
    for (uint32_t code = 1; code <= CODES; code++) {
        run(&usual, code, SENTIVOLUS_MXCSR);
        for (size_t m = 0; m < sizeof modes / sizeof modes[0]; m++) {
            run(&other, code, modes[m]);
            check(same(&usual, &other), "the same bits in every float environment", (int)(100 * modes[m] + code));
        }
        raw_block(&usual, code, SENTIVOLUS_MXCSR);
        raw_block(&other, code, modes[0]);
        flushed += !same(&usual, &other);
        raw_block(&other, code, modes[2]);
        rounded += !same(&usual, &other);
    }
    check(flushed == CODES, "the archive's own block gives other bits with FTZ and DAZ, in every code: the comparison sees them", flushed);
    check(rounded == CODES, "and with another rounding", rounded);
}

static void refusals(void)
{
    static const char *const words[] = {"accepted", "rate", "tuning", "polyphony", "layout", "structure", "store",
                                        "voice", "knob", "frames", "buffer", "point", "damaged", "blocks", "scratch", "unparkable", "chord", "unknown"};
    static const uint32_t of_setup[] = {1, 2, 3, 4, 5, 16};
    sentivolus_design design = sentivolus_new_design();
    sentivolus_params p = sentivolus_default_params();
    sentivolus_bank none = {NULL, 0, NULL, 0, NULL, 0, 0};
    float out[5] = {1, 2, 3, 4, 5};
    session *t = &other;
    for (uint32_t n = 0; n < 18; n++)
        check(!strcmp(sentivolus_refusal_word(n), words[n]), "a refusal's word", (int)n);
    for (size_t i = 0; i < sizeof of_setup / sizeof of_setup[0]; i++) {
        uint32_t n = of_setup[i];
        make(t, 9);
        t->setup.rate = n == 1 ? 7999.0f : t->setup.rate;
        t->setup.reference = n == 2 ? NAN : t->setup.reference;
        t->setup.voices = n == 3 ? SIZE_MAX : VOICES;
        t->setup.channels = n == 4 ? 3 : CHANNELS;
        t->setup.code = n == 5 ? CODES + 1 : n == 16 ? SENTIVOLUS_CHORD_COMB : 9;
        check(sentivolus_setup_check(&t->setup) == n, "the setup's refusal", (int)n);
        check(sentivolus_bank_open(&t->setup, &t->bank) == n && t->bank.cursor == 99, "open's refusal", (int)n);
        check(sentivolus_targets_len(&t->setup) + sentivolus_records_len(&t->setup) + sentivolus_delay_len(&t->setup) == 0, "no lengths", (int)n);
        check(sentivolus_counts_len(&t->setup) == 0, "no counts", (int)n);
        check(render(t, SLOTS) == n && t->counts[0] == 7, "block's refusal", (int)n);
        check(sentivolus_file_len(&t->setup) == 0, "no file", (int)n);
        check(sentivolus_bank_park(&t->setup, &none, t->file, 0) == n, "park's refusal", (int)n);
    }
    make(t, 9);
    check(sentivolus_setup_check(&t->setup) == SENTIVOLUS_ACCEPTED, "a right setup", 0);
    check(sentivolus_targets_len(&t->setup) == 22 && sentivolus_records_len(&t->setup) == 128 && sentivolus_delay_len(&t->setup) == 4 * RING &&
          sentivolus_counts_len(&t->setup) == SLOTS && sentivolus_file_len(&t->setup) == FILE_LEN, "its lengths", 0);
    t->bank.delay_len--;
    check(sentivolus_bank_open(&t->setup, &t->bank) == SENTIVOLUS_REFUSED_STORE, "a short list", 6);
    check(render(t, SLOTS) == SENTIVOLUS_REFUSED_STORE, "a block's short list", 6);
    check(sentivolus_bank_park(&t->setup, &t->bank, t->file, FILE_LEN) == SENTIVOLUS_REFUSED_STORE, "a short list to park", 6);
    t->bank.delay_len++;
    check(sentivolus_bank_park(&t->setup, &t->bank, t->file, FILE_LEN - 1) == SENTIVOLUS_REFUSED_STORE, "a short file", 6);
    check(sentivolus_bank_park(&t->setup, &t->bank, NULL, 0) == SENTIVOLUS_REFUSED_STORE, "no file at NULL", 6);
    check(sentivolus_bank_open(&t->setup, &none) == SENTIVOLUS_REFUSED_STORE, "empty lists at NULL", 6);
    check(sentivolus_bank_start(&t->setup, &t->bank, VOICES) == SENTIVOLUS_REFUSED_VOICE, "a voice too many", 7);
    p.mix = NAN;
    check(sentivolus_bank_set(&t->setup, &t->bank, 0, &p) == SENTIVOLUS_REFUSED_KNOB, "a NaN mix", 8);
    t->input.frames = 0;
    check(render(t, 0) == SENTIVOLUS_REFUSED_FRAMES, "no frames", 9);
    t->input.frames = FRAMES;
    for (size_t n = 0; n <= SLOTS + 1; n++)
        if (n != SLOTS)
            check(render(t, n) == SENTIVOLUS_REFUSED_BUFFER, "counts of a wrong length", (int)n);
    check(sentivolus_bank_block(&t->setup, &t->bank, &t->input, t->audio, FRAMES * SLOTS, NULL, 0) == SENTIVOLUS_REFUSED_BUFFER, "no counts", 10);
    t->input.steered = false;
    check(render(t, SLOTS) == SENTIVOLUS_REFUSED_BUFFER, "x unsteered", 10);
    make(&usual, 9);
    check(same(t, &usual), "a refusal changes nothing", 0);
    check(sentivolus_design_section(&design, 8, 0, 0, 0, out) == SENTIVOLUS_REFUSED_POINT && out[4] == 5, "a ninth point", 11);
    check(sentivolus_design_section(&design, 7, 0, 0, 0, out) == SENTIVOLUS_ACCEPTED && out[2] == 1, "an eighth point", 0);
}

static void arguments(void)
{
    sentivolus_design design = bells();
    sentivolus_params p = sentivolus_default_params();
    const float defaults[] = {0.1f, 0, 0, 0, 0, 1, 1, 0, 0, 0};
    float targets[SENTIVOLUS_TARGETS];
    session *t = &other;
    check(!memcmp(&p, defaults, sizeof p), "the default settings", 0);
    check(sentivolus_version() == SENTIVOLUS_VERSION, "header and archive of one version", 0);
    make(t, 9);
    check(!sentivolus_bank_open(&t->setup, &t->bank) && t->bank.cursor == 0, "open", 0);
    sentivolus_params q = {0.25f, 0.5f, 0, 0.125f, 3, 0.75f, 2, 0.375f, 1, 0.625f};
    check(!sentivolus_bank_set(&t->setup, &t->bank, 1, &q), "set", 0);
    sentivolus_targets_of(q.resonance, q.drive, q.saturation, q.character, q.stereo_offset, q.mix, q.level, q.morph_x, q.morph_y, q.morph_z, targets);
    check(!memcmp(targets, t->targets + SENTIVOLUS_TARGETS, sizeof targets), "set writes the targets of its settings", 0);
    check(targets[0] == 0.25f && targets[4] == 3 && targets[5] == 0.75f && targets[6] == 2 && targets[7] == 0.125f && targets[8] == 0.375f &&
          targets[9] == 1 && targets[SENTIVOLUS_TARGET_Z] == 0.625f, "their order", 0);
    t->input.steered = false;
    t->input.x = t->input.y = NULL;
    t->input.x_len = t->input.y_len = 0;
    check(!render(t, SLOTS) && t->bank.cursor == FRAMES, "the cursor moves", 0);
    t->setup.table = sentivolus_design_table(&design);
    check(t->setup.table.active == 8 && t->setup.table.gain == 1, "a design's table", 0);
    check(sentivolus_root(2) == sqrtf(2) && sentivolus_saturation_gain(3, 0.25f) == 0.8f, "a root and a saturation gain", 0);
}

/* Whether the counts are these, voice 0's on both channels, and nothing is written after them. */
static int counted(const session *t, uint32_t voice_0, uint32_t left, uint32_t right)
{
    const uint32_t wanted[SLOTS + 1] = {voice_0, left, voice_0, right, 7};
    return !memcmp(t->counts, wanted, sizeof wanted);
}

/* With a reference of 4,400 Hz the pitch ceiling is near 98. Voice 0 is over it for 100 frames. Voice 1 has pitch 110 and an offset of 20: on the left
 * it is below, but for the highest of eight sections, on the right over. */
static void meter(void)
{
    static float pitches[FRAMES * VOICES];
    sentivolus_design design = bells();
    sentivolus_params p = sentivolus_default_params();
    session *t = &other;
    p.stereo_offset = 20;
    for (uint32_t code = 1; code <= CODES; code++) {
        uint32_t each = code == SENTIVOLUS_POLE_ZERO ? 8 : code == SENTIVOLUS_COMB2 ? 2 : code == SENTIVOLUS_CHORD_COMB ? major.count : 1;
        make(t, code);
        for (size_t f = 0; f < FRAMES; f++) {
            pitches[f * VOICES] = f < 100 ? 200.0f : 20.0f;
            pitches[f * VOICES + 1] = 110.0f;
        }
        t->setup.reference = 4400;
        t->setup.table = sentivolus_design_table(&design);
        t->input.pitch = pitches;
        t->input.steered = false;
        t->input.x_len = t->input.y_len = 0;
        check(!sentivolus_bank_open(&t->setup, &t->bank) && !sentivolus_bank_set(&t->setup, &t->bank, 1, &p) &&
              !sentivolus_bank_start(&t->setup, &t->bank, 1), "a metered bank", (int)code);
        check(!render(t, SLOTS) && counted(t, 100 * each, code == SENTIVOLUS_POLE_ZERO ? FRAMES : 0, FRAMES * each), "counts", (int)code);
        for (size_t i = 0; i < FRAMES * VOICES; i++)
            pitches[i] = 20.0f;
        check(!render(t, SLOTS) && counted(t, 0, 0, 0), "counts are written, not added", (int)code);
    }
    float cap = sentivolus_ratio_of(1000, 1);
    check(sentivolus_over(138, 440.0f / 48000) && !sentivolus_over(137, 440.0f / 48000), "a pitch over its ceiling", 0);
    check(!sentivolus_over(69, cap) && sentivolus_over(69, nextafterf(cap, 1)), "the ceiling itself is not over", 0);
    check(!sentivolus_over(69, NAN) && sentivolus_over(69, INFINITY), "nor is a NaN", 0);
}

static uint32_t word_of(float x)
{
    uint32_t word;
    memcpy(&word, &x, sizeof word);
    return isnan(x) ? 0x7FC00000u : word;
}

/* The zeros in order (C-14): of two the greater is +0 unless both are -0, the lesser -0 unless both are +0; a NaN gives way. */
static void zeros(void)
{
    const float zero[] = {0.0f, -0.0f};
    for (int a = 0; a < 2; a++)
        for (int b = 0; b < 2; b++) {
            check(word_of(sentivolus_max(zero[a], zero[b])) == word_of(zero[a & b]), "the greater of two zeros", 2 * a + b);
            check(word_of(sentivolus_min(zero[a], zero[b])) == word_of(zero[a | b]), "the lesser of two zeros", 2 * a + b);
        }
    check(word_of(sentivolus_max(NAN, -0.0f)) == word_of(-0.0f) && word_of(sentivolus_max(-0.0f, NAN)) == word_of(-0.0f), "a NaN beside -0", 0);
    check(word_of(sentivolus_min(NAN, 0.0f)) == 0 && word_of(sentivolus_min(0.0f, NAN)) == 0, "a NaN beside +0", 0);
    float targets[SENTIVOLUS_TARGETS];
    sentivolus_targets_of(-0.0f, 0, 0, 0, 0, 1, -0.0f, 0, 0, 0, targets);
    check(word_of(targets[0]) == word_of(-0.0f) && word_of(targets[6]) == 0, "a resonance of -0 stays, a level of -0 becomes +0", 0);
}

/* ---- parking */

static uint32_t get_word(const uint8_t *at)
{
    return at[0] | (uint32_t)at[1] << 8 | (uint32_t)at[2] << 16 | (uint32_t)at[3] << 24;
}

/* Writes a word of a block, and the last one so that the sum stays. */
static void put_word(uint8_t *block, size_t word, uint32_t value)
{
    uint8_t *last = block + BYTES - 4;
    uint32_t sum = get_word(last) + get_word(block + 4 * word) - value;
    for (int i = 0; i < 4; i++) {
        block[4 * word + i] = (uint8_t)(value >> 8 * i);
        last[i] = (uint8_t)(sum >> 8 * i);
    }
}

/* Writes the blocks of a kind: of each row of `width` words the first `each`, in parts. Answers where the next goes. */
static uint8_t *put_rows(uint8_t *file, uint32_t kind, const uint32_t *words, size_t rows, size_t width, size_t each)
{
    for (size_t row = 0; row < rows; row++)
        for (size_t i = 0; i < each; i++) {
            if (i % HELD == 0) {
                memset(file, 0, BYTES);
                put_word(file, 0, kind | (uint32_t)row << 8 | (uint32_t)(i / HELD) << 16);
                file += BYTES;
            }
            put_word(file - BYTES, 1 + i % HELD, words[row * width + i]);
        }
    return file;
}

static uint8_t *put_numbers(uint8_t *file, uint32_t kind, const float *numbers, size_t rows, size_t width, size_t each)
{
    static uint32_t words[RING * SLOTS];
    for (size_t i = 0; i < rows * width; i++)
        words[i] = word_of(numbers[i]);
    return put_rows(file, kind, words, rows, width, each);
}

/* A session's file as the header lays it out. */
static void put_file(const session *t, uint8_t file[FILE_LEN])
{
    const sentivolus_setup *s = &t->setup;
    uint32_t words[9 + SENTIVOLUS_FACE + 1] = {s->code, (uint32_t)s->voices, (uint32_t)s->channels, s->clean, word_of(s->rate), word_of(s->reference),
                                               (uint32_t)t->bank.cursor, (uint32_t)(t->bank.cursor >> 32), s->table.active};
    for (size_t i = 0; i < SENTIVOLUS_FACE; i++)
        words[9 + i] = word_of(s->table.sections[i]);
    words[9 + SENTIVOLUS_FACE] = word_of(s->table.gain);
    file = put_rows(file, 1, words, 1, 0, 9 + SENTIVOLUS_FACE + 1);
    file = put_numbers(file, 2, t->targets, VOICES, SENTIVOLUS_TARGETS, SENTIVOLUS_TARGET_Z);
    file = put_numbers(file, 3, t->records, SLOTS, SENTIVOLUS_RECORD, SENTIVOLUS_RECORD_Z);
    put_numbers(file, 4, t->delay, SLOTS, RING, RING);
}

static uint8_t file[FILE_LEN];

/* A bank is parked and goes on, restored in other lists: no bit differs from the bank that was not. */
static void parking(void)
{
    sentivolus_design design = bells();
    session *t = &usual, *u = &other;
    for (uint32_t code = 1; code <= PARKED_CODES; code++) {
        size_t cursor = 0;
        raw_block(t, code, SENTIVOLUS_MXCSR);
        t->setup.table = sentivolus_design_table(&design);
        t->setup.table.active = 1000 + code;
        t->setup.table.gain = 0.75f;
        t->setup.reference = 441.0f;
        t->setup.clean = code % 2 == 0;
        t->bank.cursor = ((size_t)code << 32) - 100;
        put_file(t, file);
        check(!sentivolus_bank_park(&t->setup, &t->bank, t->file, FILE_LEN) && !memcmp(t->file, file, FILE_LEN), "the file's layout", (int)code);

        make(u, code);
        memcpy(u->audio, t->audio, sizeof u->audio);
        memcpy(u->counts, t->counts, sizeof u->counts);
        spoil(u);
        check(!sentivolus_file_setup(t->file, FILE_LEN, &u->setup, &cursor) && same_setup(&t->setup, &u->setup) && cursor == t->bank.cursor,
              "the setup of a file", (int)code);
        spoil(u);
        check(!sentivolus_bank_restore(t->file, FILE_LEN, &u->setup, &u->bank) && !sentivolus_bank_park(&u->setup, &u->bank, u->file, FILE_LEN) &&
              same(t, u), "the bank of a file", (int)code);
        spoil(u);
        for (size_t b = 0; b < BLOCKS; b++)
            memcpy(file + BYTES * b, t->file + BYTES * (BLOCKS - 1 - b), BYTES);
        put_word(file + BYTES * (BLOCKS - 3), SENTIVOLUS_TARGETS, 9); /* unused: of voice 0's targets ten are parked */
        check(!sentivolus_bank_restore(file, FILE_LEN, &u->setup, &u->bank) && same(t, u), "from the last block to the first", (int)code);
        check(!render(t, SLOTS) && !render(u, SLOTS) && same(t, u), "the next block of both", (int)code);
    }
}

/* One voice in stereo: voices and channels are not each other. */
static void one_voice(void)
{
    session *t = &usual;
    sentivolus_setup s;
    make(t, SENTIVOLUS_COMB2);
    t->setup.voices = 1;
    t->bank.targets_len /= VOICES;
    t->bank.records_len /= VOICES;
    t->bank.delay_len /= VOICES;
    t->scratch.targets_len /= VOICES;
    t->scratch.records_len /= VOICES;
    t->scratch.delay_len /= VOICES;
    t->input.pitch_len = t->input.x_len = t->input.y_len = FRAMES;
    size_t length = sentivolus_file_len(&t->setup);
    check(length == BYTES * (2 + 1 + CHANNELS + CHANNELS * ((RING + HELD - 1) / HELD)), "the file of one voice", 0);
    check(!sentivolus_bank_park(&t->setup, &t->bank, t->file, length) && t->file[8] == 1 && t->file[12] == CHANNELS, "one voice parked", 0);
    check(!sentivolus_file_setup(t->file, length, &s, NULL) && s.voices == 1 && s.channels == CHANNELS, "the setup of its file", 0);
    check(!sentivolus_bank_restore(t->file, length, &t->setup, &t->bank) && t->setup.voices == 1 && t->setup.channels == CHANNELS, "one voice restored", 0);
    check(!sentivolus_bank_audition(&t->setup, &t->bank, &t->input, &t->scratch, t->heard, FRAMES * CHANNELS, t->heard_counts, CHANNELS) &&
          !sentivolus_bank_block(&t->setup, &t->bank, &t->input, t->audio, FRAMES * CHANNELS, t->counts, CHANNELS) && as_heard(t), "one voice auditioned", 0);
}

/* NaNs of every kind, signalling ones too, in every float environment. */
static void parked_nans(void)
{
    static const uint32_t nans[] = {0x7F800001, 0xFFC12345, 0x7FC00000, 0xFFFFFFFF};
    session *t = &usual, *u = &other;
    sentivolus_setup s = sentivolus_new_setup(SENTIVOLUS_COMB2, NAN, VOICES, CHANNELS);
    for (size_t m = 0; m < sizeof modes / sizeof modes[0]; m++) {
        make(t, SENTIVOLUS_COMB2);
        make(u, SENTIVOLUS_COMB2);
        memcpy(t->targets + 3, nans, sizeof nans);
        memcpy(t->records + 40, nans, sizeof nans);
        memcpy(t->delay + RING, nans, sizeof nans);
        memcpy(t->setup.table.sections + 150, nans, sizeof nans);
        memcpy(&t->setup.table.gain, nans, sizeof t->setup.table.gain);
        put_file(t, file);
        memcpy(u->file, file, FILE_LEN);
        put_word(u->file + 2 * BYTES, 1 + 3, nans[0]);
        unsigned before = _mm_getcsr();
        _mm_setcsr(modes[m]);
        sentivolus_refusal parked = sentivolus_bank_park(&t->setup, &t->bank, t->file, FILE_LEN);
        sentivolus_refusal restored = sentivolus_bank_restore(u->file, FILE_LEN, &u->setup, &u->bank);
        put_word(u->file, 5, nans[0]);
        size_t length = sentivolus_file_len(&s);
        sentivolus_refusal not_parked = sentivolus_bank_park(&s, &t->bank, t->file, FILE_LEN);
        sentivolus_refusal not_read = sentivolus_file_setup(u->file, FILE_LEN, &s, NULL);
        sentivolus_refusal not_restored = sentivolus_bank_restore(u->file, FILE_LEN, &s, &t->bank);
        _mm_setcsr(before);
        check(!length && not_parked == SENTIVOLUS_REFUSED_RATE && not_read == SENTIVOLUS_REFUSED_RATE && not_restored == SENTIVOLUS_REFUSED_RATE,
              "a NaN rate is refused and not trapped", (int)modes[m]);
        check(!parked && !memcmp(t->file, file, FILE_LEN), "a NaN is parked as 7fc00000", (int)modes[m]);
        check(!restored && isnan(u->targets[3]), "any NaN is restored as one", (int)modes[m]);
        put_file(u, u->file);
        check(!memcmp(u->file, file, FILE_LEN), "a bank with NaNs comes back", (int)modes[m]);
    }
}

/* Faults of a file in the order of their checks, each a word of a block; after them lists that are too short. */
static const struct fault {
    size_t block, word;
    uint32_t value;
    sentivolus_refusal refusal;
} faults[] = {
    {BLOCKS - 1, 0, 1, SENTIVOLUS_REFUSED_BLOCKS},          /* kind 1 part 0 doubled */
    {1, 0, 0x20001, SENTIVOLUS_REFUSED_BLOCKS},             /* kind 1 part 1 missing */
    {0, 4, 2, SENTIVOLUS_REFUSED_BLOCKS},                   /* clean */
    {0, 5, 0, SENTIVOLUS_REFUSED_RATE},
    {0, 6, 0x7FC00000, SENTIVOLUS_REFUSED_TUNING},
    {0, 2, 0xFFFFFFFF, SENTIVOLUS_REFUSED_POLYPHONY},
    {0, 3, 3, SENTIVOLUS_REFUSED_LAYOUT},
    {0, 1, SENTIVOLUS_CHORD_COMB, SENTIVOLUS_REFUSED_STRUCTURE},
    {BLOCKS - 1, 0, 3, SENTIVOLUS_REFUSED_BLOCKS},          /* slot 0's record doubled */
    {BLOCKS - 1, 0, 0x420304, SENTIVOLUS_REFUSED_BLOCKS}    /* a ring's part 66, unknown */
};

/* The archive's restore by itself, onto the session's own setup and cursor. */
static uint32_t raw_restore(session *t, size_t length)
{
    sentivolus_setup *s = &t->setup;
    sentivolus_bank *b = &t->bank;
    return sentivolus_restore(t->file, length, b->targets, b->targets_len, b->records, b->records_len, b->delay, b->delay_len,
                              &s->code, &s->rate, &s->reference, &s->voices, &s->channels, &s->clean,
                              &s->table.active, &s->table.three_axes, s->table.sections, &s->table.gain, &s->chord.count, s->chord.offsets, &b->cursor);
}

/* The same of the setup alone. */
static uint32_t raw_setup(session *t, size_t length)
{
    sentivolus_setup *s = &t->setup;
    return sentivolus_parked_setup(t->file, length, &s->code, &s->rate, &s->reference, &s->voices, &s->channels, &s->clean,
                                   &s->table.active, &s->table.three_axes, s->table.sections, &s->table.gain, &s->chord.count, s->chord.offsets,
                                   &t->bank.cursor);
}

/* A wrong length, a wrong sum; then all the faults above, and one less each time, the first mended; then the lists alone. */
static void file_refusals(void)
{
    static session kept;
    const size_t count = sizeof faults / sizeof faults[0];
    session *t = &usual, *u = &other;
    raw_block(t, SENTIVOLUS_COMB2, SENTIVOLUS_MXCSR);
    check(!sentivolus_bank_park(&t->setup, &t->bank, t->file, FILE_LEN), "a right file", 0);
    make(u, 1);
    for (size_t first = 0; first <= count + 2; first++) {
        size_t length = first == 0 ? FILE_LEN - 1 : FILE_LEN, cursor = 77;
        sentivolus_refusal refusal = first < 2 ? SENTIVOLUS_REFUSED_DAMAGED : first < count + 2 ? faults[first - 2].refusal : SENTIVOLUS_REFUSED_STORE;
        sentivolus_refusal without_6 = refusal == SENTIVOLUS_REFUSED_STORE ? SENTIVOLUS_ACCEPTED : refusal;
        sentivolus_setup s = u->setup;
        memcpy(u->file, t->file, FILE_LEN);
        for (size_t i = count; i-- > 0;)
            if (first <= i + 2)
                put_word(u->file + BYTES * faults[i].block, faults[i].word, faults[i].value);
        if (first == 1)
            u->file[BYTES * 7] ^= 1;
        u->bank.delay_len = RING * SLOTS - 1;
        memcpy(&kept, u, sizeof kept);
        check(sentivolus_bank_restore(u->file, length, &u->setup, &u->bank) == refusal, "restore's refusal", (int)first);
        check(raw_restore(u, length) == refusal && !memcmp(u, &kept, sizeof kept), "a refused restore changes nothing", (int)first);
        check(sentivolus_file_setup(u->file, length, &s, &cursor) == without_6, "file_setup's refusal", (int)first);
        check(same_setup(&s, without_6 ? &u->setup : &t->setup) && cursor == (without_6 ? 77 : t->bank.cursor), "what file_setup leaves", (int)first);
    }
    u->bank.delay_len++;
    check(!sentivolus_bank_restore(u->file, FILE_LEN, &u->setup, &u->bank), "all faults mended", 0);
    check(sentivolus_bank_restore(u->file, FILE_LEN - BYTES, &u->setup, &u->bank) == SENTIVOLUS_REFUSED_BLOCKS, "a block less", 13);
    check(sentivolus_bank_restore(NULL, 0, &u->setup, &u->bank) == SENTIVOLUS_REFUSED_BLOCKS, "an empty file at NULL", 13);
    check(!memcmp(t->delay, u->delay, sizeof t->delay) && same_setup(&t->setup, &u->setup), "the bank stays", 0);
}

/* ---- the peak */

static int peaks_are(const session *t, const float peaks[SLOTS])
{
    int all = 1;
    for (size_t slot = 0; slot < SLOTS; slot++)
        all &= word_of(sentivolus_bank_peak(&t->setup, &t->bank, slot / VOICES, slot % VOICES)) == word_of(peaks[slot]);
    return all;
}

/* Raises each slot's greatest magnitude by the session's audio. */
static void hear(const session *t, float greatest[SLOTS])
{
    for (size_t i = 0; i < FRAMES * SLOTS; i++)
        greatest[i % SLOTS] = fmaxf(greatest[i % SLOTS], fabsf(t->audio[i]));
}

/* The peaks are of the samples handed back, go on over blocks and sets, are parked, and a start clears those of its voice alone. */
static void peaks(void)
{
    const float none[SLOTS] = {0};
    session *t = &other;
    for (uint32_t code = 1; code <= CODES; code++) {
        sentivolus_params p = loud();
        float greatest[SLOTS] = {0};
        make(t, code);
        check(!sentivolus_bank_open(&t->setup, &t->bank) && peaks_are(t, none), "no peak in an opened bank", (int)code);
        for (int block = 0; block < 3; block++) {
            p.level = 3.0f - (float)block;
            check(!sentivolus_bank_set(&t->setup, &t->bank, 0, &p) && peaks_are(t, greatest), "a set leaves the peaks", (int)code);
            check(!render(t, SLOTS), "a block", (int)code);
            hear(t, greatest);
            check(peaks_are(t, greatest), "the peaks of the samples so far", (int)code);
        }
        check(greatest[0] > greatest[1] && greatest[2] > greatest[3], "voice 0 is the louder", (int)code);
        if (code <= PARKED_CODES) {
            check(!sentivolus_bank_park(&t->setup, &t->bank, t->file, FILE_LEN), "peaks parked", (int)code);
            spoil(t);
            check(!sentivolus_bank_restore(t->file, FILE_LEN, &t->setup, &t->bank) && peaks_are(t, greatest), "peaks restored", (int)code);
        }
        greatest[1] = greatest[3] = 0;
        check(!sentivolus_bank_start(&t->setup, &t->bank, 1) && peaks_are(t, greatest), "a start clears its voice's peaks", (int)code);

        /* the input at its level */
        make(t, code);
        p.mix = 0;
        p.level = 0.25f;
        memcpy(greatest, none, sizeof greatest);
        hear(t, greatest);
        check(!sentivolus_bank_open(&t->setup, &t->bank) && !sentivolus_bank_set(&t->setup, &t->bank, 0, &p) &&
              !sentivolus_bank_start(&t->setup, &t->bank, 0) && !render(t, SLOTS), "a bank without filtered sound", (int)code);
        for (size_t c = 0; c < CHANNELS; c++)
            check(sentivolus_bank_peak(&t->setup, &t->bank, c, 0) == 0.25f * greatest[c * VOICES], "a peak after mix and level", (int)code);
    }
}

/* A peak before a frame, the frame's level and its input to a bank that passes it, and the peak after. At level 0 a negative input gives a sample of -0. */
static const struct {
    float before, level, input, after;
} frame_peaks[] = {
    {0, 2, 0.25f, 0.5f}, {0, 2, -0.25f, 0.5f}, {0.5f, 2, 0.125f, 0.5f}, {0.5f, 2, NAN, 0.5f}, {0.5f, 2, 3e38f, INFINITY}, {0.5f, 2, -3e38f, INFINITY},
    {INFINITY, 2, NAN, INFINITY}, {INFINITY, 2, 1, INFINITY}, {7, 2, 0.25f, 7}, {NAN, 2, 0.25f, 0.5f}, {NAN, 2, NAN, NAN}, {NAN, 0, -1, 0},
    {-0.0f, 2, 0, 0}, {-0.0f, 2, NAN, -0.0f}, {-0.0f, 0, -1, 0}, {-7, 2, -0.25f, 0.5f}, {-7, 0, -1, 0}, {-INFINITY, 2, 0.25f, 0.5f}};

/* The last slot's peak from any before, forged ones among them; the other slots stay at 0. Then slots that are none. */
static void forged_peaks(void)
{
    session *t = &other;
    sentivolus_params p = sentivolus_default_params();
    make(t, SENTIVOLUS_POLE_ZERO);
    t->input.frames = 1;
    t->input.pitch_len = VOICES;
    t->input.steered = false;
    t->input.x_len = t->input.y_len = 0;
    check(!sentivolus_bank_open(&t->setup, &t->bank), "a bank that passes its input", 0);
    for (size_t i = 0; i < sizeof frame_peaks / sizeof frame_peaks[0]; i++) {
        float audio[SLOTS] = {0, 0, 0, frame_peaks[i].input}, after[SLOTS] = {0, 0, 0, frame_peaks[i].after};
        p.level = frame_peaks[i].level;
        check(!sentivolus_bank_set(&t->setup, &t->bank, 1, &p) && !sentivolus_bank_start(&t->setup, &t->bank, 1), "its level", (int)i);
        t->records[SENTIVOLUS_RECORD * 3 + SENTIVOLUS_PEAK] = frame_peaks[i].before;
        check(!sentivolus_bank_block(&t->setup, &t->bank, &t->input, audio, SLOTS, t->counts, SLOTS) && peaks_are(t, after), "a frame's peak", (int)i);
    }
    for (size_t slot = 0; slot < SLOTS; slot++)
        t->records[SENTIVOLUS_RECORD * slot + SENTIVOLUS_PEAK] = 7;
    check(!sentivolus_bank_peak(&t->setup, &t->bank, 0, VOICES) && !sentivolus_bank_peak(&t->setup, &t->bank, CHANNELS, 0) &&
          !sentivolus_bank_peak(&t->setup, &t->bank, SIZE_MAX, 1) && !sentivolus_bank_peak(&t->setup, &t->bank, 1, SIZE_MAX), "no such slot", 0);
    t->bank.records_len--;
    check(!sentivolus_bank_peak(&t->setup, &t->bank, 1, 1) && sentivolus_bank_peak(&t->setup, &t->bank, 1, 0) == 7, "a short list", 0);
}

/* A file parked before a record had its peak holds 0 there: the bank comes back with every peak 0, all else as it was. */
static void earlier_files(void)
{
    session *t = &usual, *u = &other;
    raw_block(t, SENTIVOLUS_COMB2, SENTIVOLUS_MXCSR);
    check(!sentivolus_bank_park(&t->setup, &t->bank, t->file, FILE_LEN), "a file", 0);
    memcpy(u, t, sizeof *u);
    for (size_t slot = 0; slot < SLOTS; slot++) {
        put_word(t->file + BYTES * (2 + VOICES + slot), 1 + SENTIVOLUS_PEAK, 0);
        check(u->records[SENTIVOLUS_RECORD * slot + SENTIVOLUS_PEAK] > 0, "a peak", (int)slot);
        u->records[SENTIVOLUS_RECORD * slot + SENTIVOLUS_PEAK] = 0;
    }
    memcpy(u->file, t->file, FILE_LEN);
    spoil(t);
    check(!sentivolus_bank_restore(t->file, FILE_LEN, &t->setup, &t->bank) && same(t, u), "a file without peaks", 0);
}

/* ---- auditions */

/* A bank that has rendered a block is auditioned and stays; then the block is committed and gives what was heard; and from the scratch the next block is
 * the bank's own. */
static void auditions(void)
{
    static session kept;
    static float x[FRAMES * VOICES], y[FRAMES * VOICES];
    sentivolus_design design = bells();
    session *t = &usual;
    for (size_t i = 0; i < FRAMES * VOICES; i++) {
        x[i] = 0.125f * (float)(i % 7);
        y[i] = 0.25f * (float)(i % 3);
    }
    for (uint32_t code = 1; code <= CODES; code++) {
        int comb = code == SENTIVOLUS_COMB2 || code == SENTIVOLUS_CHORD_COMB;
        raw_block(t, code, SENTIVOLUS_MXCSR);
        t->setup.table = sentivolus_design_table(&design);
        t->setup.table.gain = 0.75f;
        t->setup.reference = 4410.0f;
        t->setup.clean = code % 2 == 0;
        t->bank.cursor = ((size_t)code << 32) - 100;
        t->input.x = x;
        t->input.y = y;
        memcpy(t->heard, t->audio, sizeof t->heard);
        memcpy(&kept, t, sizeof kept);
        check(!audition(t, SLOTS) && same_bank(t, &kept), "an audition leaves the bank", (int)code);
        check(memcmp(t->heard, kept.heard, sizeof t->heard) && t->heard_counts[0] > 0 && t->heard_counts[0] != 7 && t->heard_counts[SLOTS] == 7,
              "something is heard and counted", (int)code);
        check(t->scratch.cursor == t->bank.cursor + (comb ? FRAMES : 0), "the copy's cursor", (int)code);
        check(!render(t, SLOTS) && as_heard(t), "the block is what was heard", (int)code);
        check(!render(t, SLOTS) && !sentivolus_bank_block(&t->setup, &t->scratch, &t->input, t->heard, FRAMES * SLOTS, t->heard_counts, SLOTS) &&
              as_heard(t), "the next block of bank and scratch", (int)code);
    }
}

/* The archive's audition by itself. */
static uint32_t raw_audition(session *t, size_t counts, size_t *rendered)
{
    const sentivolus_setup *s = &t->setup;
    const sentivolus_bank *b = &t->bank;
    const sentivolus_input *in = &t->input;
    sentivolus_bank *c = &t->scratch;
    return sentivolus_audition(s->code, s->rate, s->reference, s->voices, s->channels, s->clean,
                               s->table.active, s->table.three_axes, s->table.sections, s->table.gain, s->chord.count, s->chord.offsets, b->cursor,
                               b->targets, b->targets_len, b->records, b->records_len, b->delay, b->delay_len, &c->cursor,
                               c->targets, c->targets_len, c->records, c->records_len, c->delay, c->delay_len, in->frames, in->pitch, in->pitch_len,
                               in->steered, in->x, in->x_len, in->y, in->y_len, t->heard, FRAMES * SLOTS, t->heard_counts, counts, rendered);
}

/* Refused so by both, and nothing of the session changed. */
static void refused_audition(session *t, size_t counts, uint32_t refusal, const char *what, int which)
{
    static session kept;
    size_t rendered = 77;
    memcpy(&kept, t, sizeof kept);
    check(audition(t, counts) == refusal && raw_audition(t, counts, &rendered) == refusal, what, which);
    check(!memcmp(t, &kept, sizeof kept) && rendered == 77, "a refused audition changes nothing", which);
}

/* All faults of an audition, and one less each time, the first mended; then the scratch alone, each list too short, too long and empty. */
static void audition_refusals(void)
{
    static const uint32_t refusals[] = {1, 2, 3, 4, 5, 16, 6, 9, 10, 10, 14};
    static float longer[RING * SLOTS + 1];
    static const float blank[RING * SLOTS + 1];
    const size_t count = sizeof refusals / sizeof refusals[0];
    session *t = &usual;
    size_t rendered = 77;
    for (size_t first = 0; first < count; first++) {
        make(t, first <= 4 ? CODES + 1 : SENTIVOLUS_CHORD_COMB);
        t->setup.rate = first <= 0 ? 7999.0f : t->setup.rate;
        t->setup.reference = first <= 1 ? NAN : t->setup.reference;
        t->setup.voices = first <= 2 ? SIZE_MAX : VOICES;
        t->setup.channels = first <= 3 ? 3 : CHANNELS;
        t->setup.chord.offsets[0] = first <= 5 ? NAN : 0;
        t->bank.records_len -= first <= 6;
        t->input.frames = first <= 7 ? 4097 : FRAMES;
        t->input.pitch_len -= first <= 8;
        t->scratch.delay_len--;
        refused_audition(t, first <= 9 ? SLOTS + 1 : SLOTS, refusals[first], "an audition's refusal", (int)first);
    }
    for (int i = 0; i < 9; i++) {
        make(t, SENTIVOLUS_COMB2);
        float **list = i / 3 == 0 ? &t->scratch.targets : i / 3 == 1 ? &t->scratch.records : &t->scratch.delay;
        size_t *length = i / 3 == 0 ? &t->scratch.targets_len : i / 3 == 1 ? &t->scratch.records_len : &t->scratch.delay_len;
        *list = i % 3 == 0 ? *list : i % 3 == 1 ? longer : NULL;
        *length = i % 3 == 0 ? *length - 1 : i % 3 == 1 ? *length + 1 : 0;
        refused_audition(t, SLOTS, SENTIVOLUS_REFUSED_SCRATCH, "a scratch list of a wrong length", i);
    }
    check(!memcmp(longer, blank, sizeof longer), "a scratch list that is too long stays", 0);
    make(t, SENTIVOLUS_COMB2);
    check(!raw_audition(t, SLOTS, &rendered) && rendered == FRAMES && t->scratch.cursor == 99 + FRAMES && t->bank.cursor == 99, "all faults mended", 0);
}

/* ---- the third axis */

/* The bells of all eight states. */
static sentivolus_design cube(void)
{
    sentivolus_design d = bells();
    d.three_axes = true;
    return d;
}

/* Of a design of eight states the face at z = 0, or that at z = 1, as a design of four. */
static sentivolus_design face_of(const sentivolus_design *d, size_t face)
{
    sentivolus_design four = sentivolus_new_design();
    memcpy(four.points, d->points + 4 * face, sizeof four.points / 2);
    four.gain_db = d->gain_db;
    return four;
}

static int same_bits(float a, float b)
{
    return word_of(a) == word_of(b);
}

/* A table of eight states has both faces, a section between them is A + z * (B - A), and a design of four ignores all of it. */
static void cubes(void)
{
    sentivolus_design d = cube(), near_face = face_of(&d, 0), far_face = face_of(&d, 1);
    sentivolus_pole_zero_table t = sentivolus_design_table(&d), a = sentivolus_design_table(&near_face), b = sentivolus_design_table(&far_face);
    const size_t half = sizeof t.sections / 2;
    check(t.three_axes && t.active == 8 && t.gain == a.gain && !a.three_axes, "a table of three axes", 0);
    check(!memcmp(t.sections, a.sections, half) && !memcmp(t.sections + SENTIVOLUS_FACE, b.sections, half), "its two faces", 0);
    check(memcmp(a.sections, b.sections, half) != 0, "they differ", 0);
    d.three_axes = false;
    t = sentivolus_design_table(&d);
    check(!t.three_axes && !memcmp(t.sections, a.sections, sizeof t.sections) && same_bits(t.sections[SENTIVOLUS_FACE], 0), "of two axes one face alone", 0);

    const float zs[] = {-1, -0.0f, 0, 0.25f, 0.5f, 1, 2, INFINITY, NAN};
    d.three_axes = true;
    for (size_t i = 0; i < sizeof zs / sizeof zs[0]; i++) {
        float z = zs[i] < 0 ? 0 : zs[i] > 1 ? 1 : zs[i], between[5], at_0[5], at_1[5];
        int right = 1;
        check(!sentivolus_design_section(&d, 3, 0.25f, 0.75f, zs[i], between) && !sentivolus_design_section(&near_face, 3, 0.25f, 0.75f, zs[i], at_0) &&
              !sentivolus_design_section(&far_face, 3, 0.25f, 0.75f, NAN, at_1), "sections", (int)i);
        for (int k = 0; k < 5; k++) {
            float difference = at_1[k] - at_0[k], part = z * difference, sum = at_0[k] + part;
            right &= same_bits(between[k], sum) && at_0[k] == at_0[k];
        }
        check(right, "a section between the faces", (int)i);
    }

    sentivolus_design one = sentivolus_new_design();
    one.points[7][2].kind = SENTIVOLUS_NOTCH;
    check(sentivolus_design_table(&one).active == 0, "states at z = 1 are nothing to a design of two axes", 0);
    one.three_axes = true;
    t = sentivolus_design_table(&one);
    check(t.active == 1 && t.sections[8] == 1, "a point of one face alone is kept in both", 0);
}

/* The z numbers of voice 1 are these: its target, and its smoothed one on both channels. */
static int z_is(const session *t, float target, float smoothed)
{
    return same_bits(t->targets[SENTIVOLUS_TARGETS + SENTIVOLUS_TARGET_Z], target) &&
           same_bits(t->records[SENTIVOLUS_RECORD + SENTIVOLUS_RECORD_Z], smoothed) &&
           same_bits(t->records[SENTIVOLUS_RECORD * 3 + SENTIVOLUS_RECORD_Z], smoothed);
}

/* z is held to 0 .. 1, a NaN acts as 0; start copies it; a block glides there, in every structure. */
static void z_settings(void)
{
    const struct {
        float given, target;
    } zs[] = {{NAN, 0}, {-1, 0}, {-0.0f, -0.0f}, {0.5f, 0.5f}, {2, 1}, {INFINITY, 1}, {-INFINITY, 0}};
    session *t = &usual;
    for (uint32_t code = 1; code <= CODES; code++) {
        sentivolus_params p = sentivolus_default_params();
        make(t, code);
        check(!sentivolus_bank_open(&t->setup, &t->bank) && z_is(t, 0, 0), "z of an opened bank", (int)code);
        for (size_t i = 0; i < sizeof zs / sizeof zs[0]; i++) {
            float before = t->records[SENTIVOLUS_RECORD + SENTIVOLUS_RECORD_Z];
            p.morph_z = zs[i].given;
            check(!sentivolus_bank_set(&t->setup, &t->bank, 1, &p) && z_is(t, zs[i].target, before), "set writes z's target", (int)(100 * code + i));
            check(!sentivolus_bank_start(&t->setup, &t->bank, 1) && z_is(t, zs[i].target, zs[i].target), "start copies it", (int)(100 * code + i));
        }
        p.morph_z = 1;
        check(!sentivolus_bank_set(&t->setup, &t->bank, 1, &p) && !render(t, SLOTS), "a glide of z", (int)code);
        float z = t->records[SENTIVOLUS_RECORD + SENTIVOLUS_RECORD_Z];
        check(z > 0.5f && z < 1 && z_is(t, 1, z), "z is on its way", (int)code);
        check(same_bits(t->records[SENTIVOLUS_RECORD_Z], 0), "voice 0 stays at 0", (int)code);
    }
}

/* A bank of a table, both voices at z, that has rendered a block in the float environment of `mxcsr`. */
static void render_at(session *t, const sentivolus_pole_zero_table *table, float z, unsigned mxcsr)
{
    sentivolus_params p = loud();
    p.morph_z = z;
    make(t, SENTIVOLUS_POLE_ZERO);
    t->setup.table = *table;
    check(!sentivolus_bank_open(&t->setup, &t->bank), "a bank at z", 0);
    for (size_t voice = 0; voice < VOICES; voice++)
        check(!sentivolus_bank_set(&t->setup, &t->bank, voice, &p) && !sentivolus_bank_start(&t->setup, &t->bank, voice), "a voice at z", (int)voice);
    unsigned before = _mm_getcsr();
    _mm_setcsr(mxcsr);
    sentivolus_refusal rendered = render(t, SLOTS);
    _mm_setcsr(before);
    check(!rendered, "a block at z", 0);
}

/* Whether two sessions handed back samples of the same value, and counted alike. */
static int sounds_alike(const session *a, const session *b)
{
    int alike = !memcmp(a->counts, b->counts, sizeof a->counts);
    for (size_t i = 0; i < FRAMES * SLOTS; i++)
        alike &= a->audio[i] == b->audio[i];
    return alike;
}

/* With three axes z is heard, at 0 the near face alone; with two neither z nor the far face is. */
static void heard_z(void)
{
    sentivolus_design d = cube(), near_face = face_of(&d, 0);
    sentivolus_pole_zero_table three = sentivolus_design_table(&d), two = sentivolus_design_table(&near_face), spoilt = two;
    session *t = &usual, *u = &other;
    for (size_t i = SENTIVOLUS_FACE; i < SENTIVOLUS_SECTIONS; i++)
        spoilt.sections[i] = i % 2 ? NAN : 1e30f;
    render_at(t, &two, 0, SENTIVOLUS_MXCSR);
    render_at(u, &spoilt, 0.75f, SENTIVOLUS_MXCSR);
    check(sounds_alike(t, u), "two axes ignore z and the face at z = 1", 0);
    render_at(u, &three, 0, SENTIVOLUS_MXCSR);
    check(sounds_alike(t, u), "at z = 0 the near face", 0);
    render_at(t, &three, 0.75f, SENTIVOLUS_MXCSR);
    check(!sounds_alike(t, u), "at another z another sound", 0);
    for (size_t m = 0; m < sizeof modes / sizeof modes[0]; m++) {
        render_at(u, &three, 0.75f, modes[m]);
        check(sounds_alike(t, u) && same_bank(t, u), "the same bits in every float environment, three axes", (int)modes[m]);
    }
}

/* What a file has no words for: a table of three axes, in any code; a z number that is not +0, of any voice or slot. After 6; and nothing is written. */
static void unparkable(void)
{
    static session kept;
    session *t = &usual;
    for (uint32_t code = 1; code <= PARKED_CODES; code++)
        for (int what = 0; what < 6; what++) {
            make(t, code);
            t->setup.table.three_axes = what == 0;
            t->targets[SENTIVOLUS_TARGETS * (VOICES - 1) + SENTIVOLUS_TARGET_Z] = what == 1 ? 0.5f : what == 2 ? -0.0f : 0;
            t->records[SENTIVOLUS_RECORD * (SLOTS - 1) + SENTIVOLUS_RECORD_Z] = what == 3 ? 0.5f : what == 4 ? -0.0f : what == 5 ? NAN : 0;
            memcpy(&kept, t, sizeof kept);
            check(sentivolus_file_len(&t->setup) == FILE_LEN, "the file's length", what);
            check(sentivolus_bank_park(&t->setup, &t->bank, t->file, FILE_LEN) == SENTIVOLUS_REFUSED_UNPARKABLE && !memcmp(t, &kept, sizeof kept),
                  "not parked", (int)(100 * code) + what);
            check(sentivolus_bank_park(&t->setup, &t->bank, t->file, FILE_LEN - 1) == SENTIVOLUS_REFUSED_STORE, "6 before 15", what);
            t->bank.records_len--;
            check(sentivolus_bank_park(&t->setup, &t->bank, t->file, FILE_LEN) == SENTIVOLUS_REFUSED_STORE, "6 of a list before 15", what);
        }

    /* the way back: a glide does not come to 0, a start does */
    sentivolus_params p = sentivolus_default_params();
    make(t, SENTIVOLUS_BUZZ_MORPH);
    p.morph_z = 0.5f;
    check(!sentivolus_bank_open(&t->setup, &t->bank) && !sentivolus_bank_set(&t->setup, &t->bank, 1, &p) && !sentivolus_bank_start(&t->setup, &t->bank, 1),
          "a voice at z", 1);
    p.morph_z = 0;
    check(!sentivolus_bank_set(&t->setup, &t->bank, 1, &p), "z back at 0", 0);
    for (int block = 0; block < 60; block++)
        check(!render(t, SLOTS), "a glide", block);
    check(sentivolus_bank_park(&t->setup, &t->bank, t->file, FILE_LEN) == SENTIVOLUS_REFUSED_UNPARKABLE, "z after its glide", 0);
    check(!sentivolus_bank_start(&t->setup, &t->bank, 1) && !sentivolus_bank_park(&t->setup, &t->bank, t->file, FILE_LEN), "z after a start", 0);
}

/* A table of two axes is parked without its far face, which comes back as 0, with z's, whatever setup and lists were before. */
static void two_axes_parked(void)
{
    sentivolus_design d = bells();
    session *t = &usual, *u = &other;
    make(t, SENTIVOLUS_POLE_ZERO);
    t->setup.table = sentivolus_design_table(&d);
    put_file(t, file);
    memcpy(u, t, sizeof *u);
    for (size_t i = SENTIVOLUS_FACE; i < SENTIVOLUS_SECTIONS; i++)
        t->setup.table.sections[i] = NAN;
    check(!sentivolus_bank_park(&t->setup, &t->bank, t->file, FILE_LEN) && !memcmp(t->file, file, FILE_LEN), "a far face that is not parked", 0);
    spoil(t);
    t->setup.table.three_axes = true;
    check(!raw_restore(t, FILE_LEN) && same_bank(t, u) && !t->setup.table.three_axes, "a restored table has two axes", 0);
    t->setup.table.three_axes = true;
    check(!sentivolus_file_setup(t->file, FILE_LEN, &t->setup, NULL) && same_setup(&t->setup, &u->setup), "so has the setup of its file", 0);
}

/* ---- the chord comb */

/* Up to eight teeth: near together, and over two octaves. */
static const float near_offsets[SENTIVOLUS_TEETH] = {0, 0.001f, 0.002f, 0.003f, 0.004f, 0.005f, 0.006f, 0.007f};
static const float far_offsets[SENTIVOLUS_TEETH] = {0, 0.25f, 0.5f, 0.75f, 1, 1.25f, 1.5f, 2};

static sentivolus_chord chord_of(uint32_t count, const float offsets[SENTIVOLUS_TEETH])
{
    sentivolus_chord c;
    c.count = count;
    memcpy(c.offsets, offsets, sizeof c.offsets);
    return c;
}

/* The delay of a tooth. */
static float tooth(float ratio, float offset)
{
    float product = ratio * sentivolus_exp2(offset);
    return 1.0f / product;
}

/* Of a ring of 1,024 cells how many the teeth need: for each, from one step nearer than the whole part of its held delay to two farther. */
static size_t cells_needed(float ratio, const sentivolus_chord *c)
{
    unsigned char needed[1024] = {0};
    size_t size = 0;
    for (size_t j = 0; j < c->count; j++) {
        float delay = tooth(ratio, c->offsets[j]);
        size_t whole = (size_t)(delay >= 2 ? delay <= 1021 ? delay : 1021 : 2);
        memset(needed + whole - 1, 1, 4);
    }
    for (size_t i = 0; i < sizeof needed; i++)
        size += needed[i];
    return size;
}

/* One reading of two slots' rings: the second's teeth, each as a single read, and the size of the set of their cells. */
static void one_reading(float ratio, const sentivolus_chord *c, size_t cursor, int which)
{
    static float cells[2048];
    float taps[SENTIVOLUS_TEETH];
    int right = 1;
    for (size_t i = 0; i < 2048; i++)
        cells[i] = (float)(37 * i % 1009);
    memset(taps, 255, sizeof taps);
    size_t size = sentivolus_chord_read(cells, 2048, 1024, cursor, 1, ratio, c->count, c->offsets, taps);
    for (size_t j = 0; j < SENTIVOLUS_TEETH; j++)
        right &= same_bits(taps[j], j < c->count ? sentivolus_read(cells, 2048, 1024, cursor, 1, tooth(ratio, c->offsets[j])) : 0);
    check(right, "each tooth is a single read", which);
    check(size == cells_needed(ratio, c), "the size of the set of cells", which);
}

static void readings(void)
{
    const float ratios[] = {0.49f, 0.3f, 0.01f, 0.0015f, 1e-9f, 0, -0.0f, -1, 1, INFINITY, NAN};
    const size_t views[][2] = {{1024, 1}, {1024, SIZE_MAX}, {1000, 0}, {512, 0}, {0, 0}, {2048, 0}, {131072, 0}};
    const float zeros[SENTIVOLUS_TEETH] = {0};
    static float cells[1024];
    float taps[SENTIVOLUS_TEETH], nine[SENTIVOLUS_TEETH];
    for (size_t i = 0; i < sizeof ratios / sizeof ratios[0]; i++)
        for (uint32_t count = 0; count <= SENTIVOLUS_TEETH; count++) {
            sentivolus_chord together = chord_of(count, near_offsets), apart = chord_of(count, far_offsets);
            one_reading(ratios[i], &together, 5, (int)(100 * i + count));
            one_reading(ratios[i], &apart, SIZE_MAX - 5, (int)(100 * i + count));
        }
    cells[0] = 0.5f;
    size_t of_8 = sentivolus_chord_read(cells, 1024, 1024, 7, 0, 0.2f, 8, far_offsets, taps);
    size_t of_9 = sentivolus_chord_read(cells, 1024, 1024, 7, 0, 0.2f, UINT32_MAX, far_offsets, nine);
    check(of_8 == of_9 && of_8 > 4 && !memcmp(taps, nine, sizeof taps), "a count above 8 reads 8", 0);
    for (size_t i = 0; i < sizeof views / sizeof views[0]; i++) {
        memset(taps, 255, sizeof taps);
        check(sentivolus_chord_read(cells, 1024, views[i][0], 5, views[i][1], 0.01f, 3, major.offsets, taps) == 0 && !memcmp(taps, zeros, sizeof taps),
              "a view that reads 0", (int)i);
    }
}

/* A bank that has rendered two blocks, both voices at a character and started, of a code and a chord. */
static void render_chord(session *t, uint32_t code, const sentivolus_chord *c, float character)
{
    sentivolus_params p = loud();
    p.character = character;
    make(t, code);
    t->setup.chord = *c;
    t->setup.reference = 4400; /* so that some pitches are over the ceiling */
    check(!sentivolus_bank_open(&t->setup, &t->bank), "a bank with a chord", (int)code);
    for (size_t voice = 0; voice < VOICES; voice++)
        check(!sentivolus_bank_set(&t->setup, &t->bank, voice, &p) && !sentivolus_bank_start(&t->setup, &t->bank, voice), "a voice of it", (int)voice);
    for (int block = 0; block < 2; block++)
        check(!render(t, SLOTS), "a block of it", block);
}

/* The same lists, cursor, audio and counts, whatever the setups. */
static int sound_the_same(const session *a, const session *b)
{
    return !memcmp(a->targets, b->targets, sizeof a->targets) && !memcmp(a->records, b->records, sizeof a->records) &&
           !memcmp(a->delay, b->delay, sizeof a->delay) && !memcmp(a->audio, b->audio, sizeof a->audio) &&
           !memcmp(a->counts, b->counts, sizeof a->counts) && a->bank.cursor == b->bank.cursor;
}

/* Comb2 is the chord of offsets 0 and twice its character; other chords sound otherwise; character does nothing to them. */
static void chords_and_comb2(void)
{
    session *t = &usual, *u = &other;
    const sentivolus_chord none = chord_of(0, far_offsets);
    for (int i = 0; i <= 8; i++) {
        float character = (float)i / 8;
        sentivolus_chord two = chord_of(2, far_offsets);
        two.offsets[1] = 2 * character;
        render_chord(t, SENTIVOLUS_COMB2, &none, character);
        render_chord(u, SENTIVOLUS_CHORD_COMB, &two, character);
        check(sound_the_same(t, u) && t->counts[0] > 0 && t->bank.cursor == 2 * FRAMES, "Comb2 as a chord", i);
    }
    render_chord(t, SENTIVOLUS_CHORD_COMB, &major, 0);
    check(!sound_the_same(t, u) && t->counts[0] % 3 == 0 && 2 * t->counts[0] == 3 * u->counts[0], "another chord, judged once a tooth", 0);
    render_chord(u, SENTIVOLUS_CHORD_COMB, &major, 1);
    check(!memcmp(t->audio, u->audio, sizeof t->audio), "character does nothing to a chord", 0);
    sentivolus_chord turned = major;
    turned.offsets[0] = major.offsets[2];
    turned.offsets[2] = major.offsets[0];
    render_chord(u, SENTIVOLUS_CHORD_COMB, &turned, 0);
    check(memcmp(t->audio, u->audio, sizeof t->audio) != 0, "the taps are summed in list order", 0);
}

/* Offsets past the last tooth, and all of the chord in any other structure, are ignored, whatever they hold. */
static void ignored_chords(void)
{
    session *t = &usual, *u = &other;
    sentivolus_chord c = major, d = chord_of(UINT32_MAX, far_offsets);
    const sentivolus_chord none = {0, {0}};
    for (size_t j = 3; j < SENTIVOLUS_TEETH; j++)
        c.offsets[j] = j % 2 ? NAN : -1;
    d.offsets[0] = NAN;
    render_chord(t, SENTIVOLUS_CHORD_COMB, &major, 0.5f);
    render_chord(u, SENTIVOLUS_CHORD_COMB, &c, 0.5f);
    check(sound_the_same(t, u), "offsets past the last tooth", 0);
    for (uint32_t code = 1; code <= PARKED_CODES; code++) {
        render_chord(t, code, &none, 0.5f);
        render_chord(u, code, &d, 0.5f);
        check(sound_the_same(t, u), "a chord of another structure", (int)code);
        check(!sentivolus_bank_park(&t->setup, &t->bank, t->file, FILE_LEN) && !sentivolus_bank_park(&u->setup, &u->bank, u->file, FILE_LEN) &&
              !memcmp(t->file, u->file, FILE_LEN), "it is not parked", (int)code);
        check(!raw_restore(u, FILE_LEN) && same(t, u), "and comes back as 0", (int)code);
        u->setup.chord = d;
        check(!raw_setup(u, FILE_LEN) && same_setup(&t->setup, &u->setup), "so with the setup of its file", (int)code);
        u->setup.chord = d;
        check(!sentivolus_file_setup(u->file, FILE_LEN, &u->setup, NULL) && same_setup(&t->setup, &u->setup), "and by the call", (int)code);
    }
}

/* Every call with this setup, which is wrong for its chord: 16, after 5 and before 6, and nothing changes. */
static void refused_chord(session *t, int which)
{
    static session kept;
    sentivolus_params p = sentivolus_default_params();
    const sentivolus_refusal refusal = SENTIVOLUS_REFUSED_CHORD;
    size_t short_by = (size_t)which % 2;
    t->bank.records_len -= short_by;
    t->bank.targets_len -= short_by;
    memcpy(&kept, t, sizeof kept);
    check(sentivolus_setup_check(&t->setup) == refusal && sentivolus_bank_open(&t->setup, &t->bank) == refusal, "a wrong chord", which);
    check(sentivolus_bank_set(&t->setup, &t->bank, VOICES, &p) == refusal && sentivolus_bank_start(&t->setup, &t->bank, VOICES) == refusal,
          "set and start with it", which);
    check(render(t, SLOTS + 1) == refusal && audition(t, SLOTS + 1) == refusal, "block and audition with it", which);
    check(sentivolus_bank_park(&t->setup, &t->bank, t->file, FILE_LEN - 1) == refusal && !sentivolus_file_len(&t->setup), "park with it", which);
    check(!memcmp(t, &kept, sizeof kept), "a refused chord changes nothing", which);
    t->setup.code = CODES + 1;
    check(sentivolus_bank_open(&t->setup, &t->bank) == SENTIVOLUS_REFUSED_STRUCTURE, "5 before 16", which);
    t->setup.code = SENTIVOLUS_COMB2;
    check(!sentivolus_setup_check(&t->setup), "Comb2 with it", which);
}

static void chord_refusals(void)
{
    const uint32_t counts[] = {0, 9, 256, UINT32_MAX};
    const float wrong[] = {NAN, -1e-45f, -1, -INFINITY, 2.0000002f, 3, INFINITY}, right[] = {0, -0.0f, 1e-45f, 1, 1.9999999f, 2};
    session *t = &usual;
    for (size_t i = 0; i < sizeof counts / sizeof counts[0]; i++) {
        make(t, SENTIVOLUS_CHORD_COMB);
        t->setup.chord.count = counts[i];
        refused_chord(t, (int)i);
    }
    for (uint32_t count = 1; count <= SENTIVOLUS_TEETH; count++)
        for (size_t at = 0; at < SENTIVOLUS_TEETH; at++) {
            for (size_t i = 0; i < sizeof wrong / sizeof wrong[0]; i++) {
                make(t, SENTIVOLUS_CHORD_COMB);
                t->setup.chord = chord_of(count, far_offsets);
                t->setup.chord.offsets[at] = wrong[i];
                if (at < count)
                    refused_chord(t, (int)(100 * count + 10 * at + i));
                else
                    check(!sentivolus_setup_check(&t->setup), "an offset past the last tooth", (int)(100 * count + 10 * at + i));
            }
            for (size_t i = 0; i < sizeof right / sizeof right[0]; i++) {
                t->setup.chord = chord_of(count, far_offsets);
                t->setup.chord.offsets[at] = right[i];
                t->setup.code = SENTIVOLUS_CHORD_COMB;
                check(!sentivolus_setup_check(&t->setup), "a right offset", (int)(100 * count + 10 * at + i));
            }
        }
}

/* A chord comb is not parked, whatever else; after 6, and nothing is written. */
static void chords_unparkable(void)
{
    static session kept;
    session *t = &usual;
    make(t, SENTIVOLUS_CHORD_COMB);
    memcpy(&kept, t, sizeof kept);
    check(sentivolus_file_len(&t->setup) == FILE_LEN, "the length of a chord comb's file", 0);
    check(sentivolus_bank_park(&t->setup, &t->bank, t->file, FILE_LEN) == SENTIVOLUS_REFUSED_UNPARKABLE && !memcmp(t, &kept, sizeof kept),
          "a chord comb is not parked", 0);
    check(sentivolus_bank_park(&t->setup, &t->bank, t->file, FILE_LEN - 1) == SENTIVOLUS_REFUSED_STORE, "6 before 15", 13);
    t->bank.delay_len--;
    check(sentivolus_bank_park(&t->setup, &t->bank, t->file, FILE_LEN) == SENTIVOLUS_REFUSED_STORE, "6 of a list before 15", 13);
    t->bank.delay_len++;
    t->setup.code = SENTIVOLUS_COMB2;
    check(!sentivolus_bank_park(&t->setup, &t->bank, t->file, FILE_LEN), "the same lists as Comb2's", 0);
}

/* ---- the stack: what the calls leave untouched of a painted one */

enum { STACK = 1 << 18, PAINT = 0x5A };

static unsigned char stack[STACK] __attribute__((aligned(4096)));

static sentivolus_design design;

/* What a sitting does: nothing, the calls with one of the codes, reads the file, or works on the design. */
enum { IDLE = 0, FILE_SETUP = CODES + 1, RESTORE, DESIGN };

/* Each in a frame of its own, whose bytes count too. */
static __attribute__((noinline)) void play(session *t, uint32_t code)
{
    sentivolus_params p = loud();
    float taps[SENTIVOLUS_TEETH];
    t->setup.code = code;
    t->setup.table.three_axes = true;
    t->setup.chord = chord_of(SENTIVOLUS_TEETH, far_offsets);
    sentivolus_chord_read(t->delay, RING, RING, 0, 0, 0.01f, SENTIVOLUS_TEETH, far_offsets, taps);
    sentivolus_bank_open(&t->setup, &t->bank);
    sentivolus_bank_set(&t->setup, &t->bank, 1, &p);
    sentivolus_bank_start(&t->setup, &t->bank, 1);
    audition(t, SLOTS);
    render(t, SLOTS);
    t->setup.table.three_axes = false; /* so that it is parked */
    sentivolus_bank_park(&t->setup, &t->bank, t->file, sentivolus_file_len(&t->setup));
}

static __attribute__((noinline)) void read_file(session *t, int restored)
{
    if (restored)
        sentivolus_bank_restore(t->file, FILE_LEN, &t->setup, &t->bank);
    else
        sentivolus_file_setup(t->file, FILE_LEN, &t->setup, NULL);
}

static __attribute__((noinline)) void draw(session *t)
{
    float out[5];
    t->setup.table = sentivolus_design_table(&design);
    sentivolus_design_section(&design, 7, 0.5f, 0.5f, 0.5f, out);
}

static void *sitting(void *what)
{
    uint32_t w = *(const uint32_t *)what;
    if (w == DESIGN)
        draw(&usual);
    else if (w == FILE_SETUP || w == RESTORE)
        read_file(&usual, w == RESTORE);
    else if (w != IDLE)
        play(&usual, w);
    return NULL;
}

static long stack_used(uint32_t what)
{
    pthread_attr_t attributes;
    pthread_t thread;
    long untouched = 0;
    memset(stack, PAINT, STACK);
    pthread_attr_init(&attributes);
    check(!pthread_attr_setstack(&attributes, stack, STACK) && !pthread_create(&thread, &attributes, sitting, &what), "a thread", 0);
    pthread_join(thread, NULL);
    while (untouched < STACK && stack[untouched] == PAINT)
        untouched++;
    return STACK - untouched;
}

/* Of the sittings from one to another the most bytes, without those of an idle one. */
static long most_used(uint32_t from, uint32_t to)
{
    long idle = stack_used(IDLE), most = 0;
    for (uint32_t what = from; what <= to; what++) {
        long used = stack_used(what) - idle;
        most = used > most ? used : most;
    }
    return most;
}

static void stacks(void)
{
    make(&usual, 1);
    design = cube();
    long drawing = most_used(DESIGN, DESIGN), calls = most_used(1, CODES), reading = most_used(FILE_SETUP, RESTORE);
    check(calls > 1024 && calls < 12288, "the calls take less than 12 KiB of stack", (int)calls);
    check(drawing > 1024 && drawing < 24576, "a design's table and sections less than 24 KiB", (int)drawing);
    check(reading > 1024 && reading < 65536, "reading a parked file less than 64 KiB", (int)reading);
    printf("c: %ld bytes of stack, %ld for a design, %ld to read a parked file\n", calls, drawing, reading);
}

int main(void)
{
    for (size_t i = 0; i < FRAMES * VOICES; i++)
        pitch[i] = 60.0f + 3.0f * (float)(i % 31);
    float_environments();
    refusals();
    arguments();
    meter();
    zeros();
    parking();
    one_voice();
    parked_nans();
    file_refusals();
    peaks();
    forged_peaks();
    earlier_files();
    auditions();
    audition_refusals();
    cubes();
    z_settings();
    heard_z();
    unparkable();
    two_axes_parked();
    readings();
    chords_and_comb2();
    ignored_chords();
    chord_refusals();
    chords_unparkable();
    stacks();
    printf("c: %d checks, %d failed\n", checks, failures);
    return failures != 0;
}
