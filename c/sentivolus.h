/* Sentivolus, the proved voice filter bank: its interface for C and C++.
 *
 * Link target/staticlib/libsentivolus.a (x86-64 Linux; `./prove.sh sentivolus` writes it). It needs memcpy and memset alone.
 * example.c, beside this file, opens a bank, renders a chord, parks and restores it half-way, and auditions a block.
 *
 * 1. Numbers and names   2. Structs   3. The archive's symbols   4. The calls
 * The calls of part 4 take structs and see to the float environment: use these. They are inline, over the symbols of part 3, which take
 * every number by itself.
 *
 * What holds for every call
 *
 *   Floats      IEEE 754 binary32, rounding to nearest, subnormals kept. That is what was proved; where MXCSR flushes subnormals (FTZ,
 *               DAZ), as on many audio threads, or rounds another way, other bits come out. The calls of part 4 put MXCSR at its
 *               default while they run and give the caller's back. The symbols of part 3 ask for it: see there.
 *   Arguments   Any float may hold any bits and any number may be as large as its type holds: a wrong one is refused, or held to its
 *               range as said where it stands. A bool is false or true.
 *   NaN         All NaNs are one value: the sign and payload of a NaN in an answer are free. No other bit is.
 *   Refusals    A refused call changes no list, no struct and no number behind a pointer.
 *   Ownership   The caller owns every list and struct and lends it for the call; nothing is kept between calls.
 *   Pointers    A list is a pointer and its length in elements. An empty list may have any pointer, NULL too. Every other pointer must be
 *               valid and aligned as its type asks; none is tested.
 *   Aliasing    What a call writes (a list, the file, *cursor, *scratch_cursor, *rendered, out, taps, the numbers of a setup) overlaps nothing
 *               else that the call is lent: an audition's scratch is never the bank, nor a part of it.
 *   Threads     The archive has no variables. Any thread may call it; two calls at once share no list that one of them writes.
 *   Real time   No allocation, no lock, no system call. Less than 12 KiB of stack; a design's table and sections less than 24 KiB; reading a
 *               parked file (sentivolus_file_setup and sentivolus_bank_restore, and the symbols under them) less than 64 KiB, for a table of
 *               its blocks' places. The time goes with voices x channels x frames, that of parking and reading with the file's bytes; an
 *               audition copies the bank's lists besides. Numbers in the subnormal range take several times as long;
 *               a slot without delay lines whose record no longer changes, while pitch, input and steering stand still, next to none
 *               (docs/PERFORMANCE.md).
 *
 * Layouts (slot = channel * voices + voice)
 *
 *   targets     11 a voice: resonance, drive, drive gain, inverse knee, offset, mix, level, character, x, y, z
 *   records     32 a slot: ten smoothed numbers in the order of targets, twenty states, the peak, the smoothed z. After each frame the peak is
 *               sentivolus_max(peak, |sample|) of the sample handed back, after mix and level. Start clears it to +0, set leaves it
 *   delay       sentivolus_ring_len(rate) a slot: the ring
 *   pitch, x, y [frame][voice]; x and y are empty in an unsteered block
 *   audio       [frame][channel][voice], filtered in place
 *   counts      one u32 a slot, written anew by each accepted block or audition: how often in it a cutoff was over the pitch ceiling, 0.49 of the
 *               rate, before it was held there (equal is not over, NaN is not). A frame counts 0 or 1; with SENTIVOLUS_COMB2 0 or 2, its two reads; with
 *               SENTIVOLUS_CHORD_COMB 0 or the number of its teeth; with SENTIVOLUS_POLE_ZERO each running section that was over, 0 to 8. With
 *               SENTIVOLUS_DJ_SWEEP the cutoff is the one that the sweep comes to, not the pitch handed in
 *   sections    320 numbers: the face at z = 0 and then the face at z = 1, which a table of two axes ignores. A face has 160: by section, then
 *               octaves, damping, high, band, low, then the terms c, x, y, xy of each. With three axes a section's number is A + z * (B - A), where
 *               A and B are those of the two faces at x and y
 *   file        a parked bank, in blocks of 512 bytes, little-endian: byte 0 kind, byte 1 voice or slot, bytes 2 and 3 part; then 126 words, 0 where
 *               unused, floats as their bits, NaN as 7fc00000; then the word that makes the sum of all 128 words zero modulo 2^32.
 *               Kind 1, parts 0 and 1, byte 1 zero: code, voices, channels, clean 0 or 1, rate, reference, cursor low, cursor high, active,
 *               the face at z = 0, gain. Kind 2, part 0: a voice's targets without z. Kind 3, part 0: a slot's record without z. Kind 4: a slot's ring,
 *               cell 0 first, 126 a part. Written by kind, then voice or slot, then part. Read in any order; unused words are ignored, and any NaN is
 *               taken. Files of versions before 700 hold 0 where the peak stands. A chord comb, and a bank that needs a third axis, are not parked:
 *               refusal 15. A chord that the structure ignores is not in the file and comes back as count 0 and offsets 0
 */
#ifndef SENTIVOLUS_H
#define SENTIVOLUS_H
#include <stdbool.h>
#include <stddef.h>
#include <stdint.h>
#include <xmmintrin.h>
#ifdef __cplusplus
extern "C" {
#endif

/* ---- 1. Numbers and names ---- */

/* 10,000 x major + 100 x minor + patch. It grows with every change of a call, a struct or a layout; sentivolus_version() gives that of the
 * archive. */
#define SENTIVOLUS_VERSION 1000

enum {
    SENTIVOLUS_MOST_VOICES = 16,
    SENTIVOLUS_MOST_CHANNELS = 2,
    SENTIVOLUS_MOST_FRAMES = 4096, /* in a block */
    SENTIVOLUS_PARAMS = 10,        /* settings of a voice */
    SENTIVOLUS_TARGETS = 11,       /* numbers a voice */
    SENTIVOLUS_TARGET_Z = 10,      /* z's place in a voice's targets */
    SENTIVOLUS_RECORD = 32,        /* numbers a slot */
    SENTIVOLUS_PEAK = 30,          /* the peak's place in a record */
    SENTIVOLUS_RECORD_Z = 31,      /* z's place in a record */
    SENTIVOLUS_STATES = 8,         /* of a pole-zero design: four at z = 0, then four at z = 1 */
    SENTIVOLUS_POINTS = 8,         /* a state */
    SENTIVOLUS_SECTIONS = 320,     /* numbers of a pole-zero table */
    SENTIVOLUS_FACE = 160,         /* numbers of one of its two faces */
    SENTIVOLUS_TEETH = 8           /* offsets of a chord */
};

/* The structures that a bank's filters can have. */
typedef enum sentivolus_code {
    SENTIVOLUS_BUZZ_MORPH = 1,             /* a shaped state-variable stage; character goes from low-pass by notch to high-pass */
    SENTIVOLUS_DJ_SWEEP = 2,               /* low-pass below the middle of the cutoff's range, flat at it, high-pass above */
    SENTIVOLUS_DIFFUSER = 3,               /* all-pass stages in series; character sets how many, 1 to 8 */
    SENTIVOLUS_TRANSISTOR_LADDER = 4,      /* a ladder of saturating stages; character slows the cutoff */
    SENTIVOLUS_DIODE_LADDER = 5,           /* coupled stages after an asymmetric shaper; character slows the cutoff */
    SENTIVOLUS_CLEAN_LADDER = 6,           /* coupled stages without the shaper; character slows the cutoff */
    SENTIVOLUS_DRIVEN_LADDER = 7,          /* the transistor ladder, overdriven by character */
    SENTIVOLUS_POLE_ZERO = 8,              /* up to eight drawn sections, blended by x, y and, with three axes, z; character slows cutoff, x and y */
    SENTIVOLUS_COMB2 = 9,                  /* a feedback comb with two taps, the second up to two octaves above by character */
    SENTIVOLUS_EXPANDER_MULTIMODE = 10,    /* a four-pole ladder; character goes from low-pass by notch to high-pass */
    SENTIVOLUS_EXPANDER_BAND_PASS = 11,    /* the four-pole ladder's band-pass */
    SENTIVOLUS_K35 = 12,                   /* Sallen-Key with a saturating feedback; character goes from low-pass to high-pass */
    SENTIVOLUS_CHORD_COMB = 13             /* a feedback comb with up to eight taps, the teeth of the setup's chord; character does nothing */
} sentivolus_code;

/* What a point of a pole-zero design does. A number above 7 acts as a Bypass. */
typedef enum sentivolus_kind {
    SENTIVOLUS_HIGH_PASS = 0,
    SENTIVOLUS_LOW_PASS = 1,
    SENTIVOLUS_BYPASS = 2,
    SENTIVOLUS_ALL_PASS = 3,
    SENTIVOLUS_BAND_PASS = 4,
    SENTIVOLUS_NOTCH = 5,
    SENTIVOLUS_BELL = 6,
    SENTIVOLUS_FREE = 7
} sentivolus_kind;

/* What a call answers: 0, or the refusal whose condition was met first. Checks run in this order, each call making those whose values it
 * takes, but 16 stands between 5 and 6, and where 'refusals 1 to 6' are spoken of it is among them; those of a parked file have an order of their
 * own, said at sentivolus_bank_restore. */
typedef enum sentivolus_refusal {
    SENTIVOLUS_ACCEPTED = 0,
    SENTIVOLUS_REFUSED_RATE = 1,      /* rate NaN, below 8,000 or above 384,000 */
    SENTIVOLUS_REFUSED_TUNING = 2,    /* reference NaN, below 1 or above 20,000 */
    SENTIVOLUS_REFUSED_POLYPHONY = 3, /* voices not 1 to 16 */
    SENTIVOLUS_REFUSED_LAYOUT = 4,    /* channels not 1 or 2 */
    SENTIVOLUS_REFUSED_STRUCTURE = 5, /* code not 1 to 13 */
    SENTIVOLUS_REFUSED_STORE = 6,     /* targets, records, delay or the file to be written not exactly as long as the setup asks */
    SENTIVOLUS_REFUSED_VOICE = 7,     /* voice number not below voices */
    SENTIVOLUS_REFUSED_KNOB = 8,      /* NaN resonance, drive, saturation, character or mix */
    SENTIVOLUS_REFUSED_FRAMES = 9,    /* frames 0 or above 4,096 */
    SENTIVOLUS_REFUSED_BUFFER = 10,   /* pitch, x, y or audio not exactly as long as the frames ask, or counts as the slots ask */
    SENTIVOLUS_REFUSED_POINT = 11,    /* point number above 7 */
    SENTIVOLUS_REFUSED_DAMAGED = 12,  /* a parked file's length no multiple of 512, or a block whose words do not sum to zero */
    SENTIVOLUS_REFUSED_BLOCKS = 13,   /* a block of a parked file missing, doubled or unknown, or its clean word above 1 */
    SENTIVOLUS_REFUSED_SCRATCH = 14,  /* targets, records or delay of an audition's scratch not exactly as long as the setup asks */
    SENTIVOLUS_REFUSED_UNPARKABLE = 15, /* a bank that a parked file has no words for: a chord comb, a three-axis table, or a z number, of targets
                                         * or records, whose bits are not all zero */
    SENTIVOLUS_REFUSED_CHORD = 16     /* of a chord comb: count not 1 to 8, or the offset of one of its teeth NaN, below 0 or above 2 */
} sentivolus_refusal;

/* The trade's word for a refusal's number. */
static inline const char *sentivolus_refusal_word(uint32_t number)
{
    static const char *const words[] = {"accepted", "rate", "tuning", "polyphony", "layout", "structure",
                                        "store", "voice", "knob", "frames", "buffer", "point", "damaged", "blocks", "scratch", "unparkable", "chord"};
    return number < sizeof words / sizeof words[0] ? words[number] : "unknown";
}

/* ---- 2. Structs ---- */

/* A pole-zero design in the form that the filter runs, made by sentivolus_design_table. */
typedef struct sentivolus_pole_zero_table {
    uint32_t active; /* sections that run, 0 to 8; a larger number acts as 8 */
    float gain;      /* linear, after the sections */
    float sections[SENTIVOLUS_SECTIONS];
    bool three_axes; /* x, y and z; otherwise x and y, and the face at z = 1 is ignored */
} sentivolus_pole_zero_table;

/* The teeth of a chord comb: tooth i is a tap at delay 1 / (cutoff x sentivolus_exp2(offsets[i])) samples, the cutoff in cycles a sample. The taps are
 * summed in this order and multiplied by 1 / count; all else is SENTIVOLUS_COMB2's, which is the chord of offsets 0 and twice its character. Three teeth
 * at 0, 4.0f / 12 and 7.0f / 12 ring as a major chord. */
typedef struct sentivolus_chord {
    uint32_t count;                  /* teeth, 1 to 8 */
    float offsets[SENTIVOLUS_TEETH]; /* octaves above the cutoff, 0 to 2; those past the last tooth are ignored */
} sentivolus_chord;

/* What a bank is opened with; every later call is handed it again. Make it by sentivolus_new_setup or sentivolus_file_setup: later versions add
 * fields. */
typedef struct sentivolus_setup {
    uint32_t code;   /* a sentivolus_code */
    float rate;      /* samples a second, 8,000 to 384,000 */
    float reference; /* hertz of pitch 69, 1 to 20,000 */
    size_t voices;   /* 1 to 16 */
    size_t channels; /* 1, or 2: left and right */
    bool clean;      /* clean drive: the clipper's input 24 dB lower and its output 24 dB higher */
    sentivolus_pole_zero_table table; /* read by SENTIVOLUS_POLE_ZERO alone */
    sentivolus_chord chord;           /* read by SENTIVOLUS_CHORD_COMB alone */
} sentivolus_setup;

/* The lists that the caller lends, and the cursor of the rings, any number. Their lengths: sentivolus_targets_len and its like. An audition's
 * scratch is a second one. */
typedef struct sentivolus_bank {
    float *targets;
    size_t targets_len;
    float *records;
    size_t records_len;
    float *delay;
    size_t delay_len;
    size_t cursor;
} sentivolus_bank;

/* One voice's settings. A bank glides to new ones over a few milliseconds. Defaults: sentivolus_default_params. */
typedef struct sentivolus_params {
    float resonance;     /* held to 0 .. 1; default 0.1 */
    float drive;         /* held to 0 .. 1: gain of 0 to 24 dB into a soft clipper before the filter; default 0 */
    float saturation;    /* of the resonance path, held to 0 .. 1; default 0 */
    float character;     /* held to 0 .. 1; what it does is the structure's; default 0 */
    float stereo_offset; /* semitones: the right channel's cutoff rises by it, the left's falls; NaN or infinite acts as 0; default 0 */
    float mix;           /* held to 0 .. 1: 0 the input, 1 the filtered; default 1 */
    float level;         /* linear gain after the mix, held to 0 and above; NaN or infinite acts as 0; default 1 */
    float morph_x;       /* of SENTIVOLUS_POLE_ZERO, held to 0 .. 1, NaN acts as 0; default 0 */
    float morph_y;       /* likewise */
    float morph_z;       /* likewise, of a three-axis table; it is not steered, and character does not slow it */
} sentivolus_params;

/* A block's input beside its audio. Where `steered` is set, x and y are added to the smoothed morph_x and morph_y and the sums held to 0 .. 1. */
typedef struct sentivolus_input {
    size_t frames;      /* 1 to 4,096 */
    const float *pitch; /* the cutoff in semitones, 69 being the reference; held to 0.49 of the rate, the pitch ceiling */
    size_t pitch_len;   /* frames x voices */
    bool steered;
    const float *x;
    size_t x_len;       /* frames x voices, or 0 in an unsteered block */
    const float *y;
    size_t y_len;       /* the same */
} sentivolus_input;

/* One point of a design: a second-order section. NaN takes the default. */
typedef struct sentivolus_design_point {
    uint32_t kind;   /* a sentivolus_kind; default Bypass */
    float frequency; /* hertz at cutoff pitch 68.4 and reference 440, held to 8 .. 22,050; default 1,000 */
    float q;         /* held to 0.1 .. 40; default 0.7071 */
    float a;         /* Bell: its gain in dB, held to -18 .. 18, default 0. Free: its zero's frequency, as frequency */
    float b;         /* Free: its zero's Q, as q */
} sentivolus_design_point;

/* A pole-zero design: four states at x, y = 0, 0; 1, 0; 0, 1; 1, 1, of eight points each, and the overall gain. With three axes these are at z = 0, and
 * states 4 to 7, in the same order, at z = 1. */
typedef struct sentivolus_design {
    sentivolus_design_point points[SENTIVOLUS_STATES][SENTIVOLUS_POINTS];
    float gain_db;   /* held to -24 .. 24; NaN acts as 0 */
    bool three_axes; /* otherwise two, and states 4 to 7 are ignored */
} sentivolus_design;

/* ---- 3. The archive's symbols ----
 *
 * Each asks that MXCSR rounds to nearest, keeps subnormals and traps nothing: its default, 0x1F80, flags apart. Where it may be otherwise, call
 * them between sentivolus_floats_enter and sentivolus_floats_leave. `sections` has 320 numbers, `offsets` 8. */

uint32_t sentivolus_version(void);

/* Every voice set to the defaults and started; the cursor is 0 afterwards. */
uint32_t sentivolus_open(uint32_t code, float rate, float reference, size_t voices, size_t channels, bool clean,
                         uint32_t active, bool three_axes, const float sections[], float gain, uint32_t count, const float offsets[],
                         float *targets, size_t targets_len, float *records, size_t records_len, float *delay, size_t delay_len);

/* Writes one voice's targets. The cursor stays. */
uint32_t sentivolus_set(uint32_t code, float rate, float reference, size_t voices, size_t channels, bool clean,
                        uint32_t active, bool three_axes, const float sections[], float gain, uint32_t count, const float offsets[],
                        float *targets, size_t targets_len, size_t voice,
                        float resonance, float drive, float saturation, float character, float stereo_offset, float mix,
                        float level, float morph_x, float morph_y, float morph_z);

/* Copies a voice's targets to its smoothed numbers on every channel and zeroes its states, peaks and rings. The cursor stays. */
uint32_t sentivolus_start(uint32_t code, float rate, float reference, size_t voices, size_t channels, bool clean,
                          uint32_t active, bool three_axes, const float sections[], float gain, uint32_t count, const float offsets[],
                          const float *targets, size_t targets_len, float *records, size_t records_len,
                          float *delay, size_t delay_len, size_t voice);

/* Renders a block in place and writes its counts. *cursor is the cursor, and the new one afterwards; *rendered becomes the frames rendered. */
uint32_t sentivolus_block(uint32_t code, float rate, float reference, size_t voices, size_t channels, bool clean,
                          uint32_t active, bool three_axes, const float sections[], float gain, uint32_t count, const float offsets[],
                          size_t *cursor, const float *targets, size_t targets_len, float *records, size_t records_len,
                          float *delay, size_t delay_len, size_t frames, const float *pitch, size_t pitch_len, bool steered,
                          const float *x, size_t x_len, const float *y, size_t y_len, float *audio, size_t audio_len,
                          uint32_t *counts, size_t counts_len, size_t *rendered);

/* As sentivolus_block on a copy of the bank, made in the scratch lists, whatever they hold; *scratch_cursor becomes the copy's new cursor. The bank's
 * lists stay as they are, and its cursor is the caller's to keep. */
uint32_t sentivolus_audition(uint32_t code, float rate, float reference, size_t voices, size_t channels, bool clean,
                             uint32_t active, bool three_axes, const float sections[], float gain, uint32_t count, const float offsets[],
                             size_t cursor, const float *targets, size_t targets_len, const float *records, size_t records_len,
                             const float *delay, size_t delay_len, size_t *scratch_cursor,
                             float *scratch_targets, size_t scratch_targets_len, float *scratch_records, size_t scratch_records_len,
                             float *scratch_delay, size_t scratch_delay_len, size_t frames, const float *pitch, size_t pitch_len, bool steered,
                             const float *x, size_t x_len, const float *y, size_t y_len, float *audio, size_t audio_len,
                             uint32_t *counts, size_t counts_len, size_t *rendered);

/* The bytes of the file that a bank of this setup is parked in, whatever its structure, table and chord; 0 for a setup that is refused. */
size_t sentivolus_park_len(uint32_t code, float rate, float reference, size_t voices, size_t channels, bool clean,
                           uint32_t active, bool three_axes, const float sections[], float gain, uint32_t count, const float offsets[]);

/* Parks a bank in a file of exactly that length. The bank stays as it is. */
uint32_t sentivolus_park(uint32_t code, float rate, float reference, size_t voices, size_t channels, bool clean,
                         uint32_t active, bool three_axes, const float sections[], float gain, uint32_t count, const float offsets[],
                         size_t cursor, const float *targets, size_t targets_len, const float *records, size_t records_len,
                         const float *delay, size_t delay_len, uint8_t *file, size_t file_len);

/* The setup and the cursor of a parked file, from which the lengths of the lists follow. Like sentivolus_restore it may read *clean and *three_axes
 * before it writes them. */
uint32_t sentivolus_parked_setup(const uint8_t *file, size_t file_len, uint32_t *code, float *rate, float *reference,
                                 size_t *voices, size_t *channels, bool *clean,
                                 uint32_t *active, bool *three_axes, float sections[], float *gain,
                                 uint32_t *count, float offsets[], size_t *cursor);

/* Restores the bank of a parked file: its lists, its setup and its cursor. */
uint32_t sentivolus_restore(const uint8_t *file, size_t file_len, float *targets, size_t targets_len, float *records, size_t records_len,
                            float *delay, size_t delay_len, uint32_t *code, float *rate, float *reference,
                            size_t *voices, size_t *channels, bool *clean,
                            uint32_t *active, bool *three_axes, float sections[], float *gain,
                            uint32_t *count, float offsets[], size_t *cursor);

/* The ten default settings, in the order of sentivolus_params. */
void sentivolus_defaults(float out[10]);

/* The eleven targets of ten settings. */
void sentivolus_targets_of(float resonance, float drive, float saturation, float character, float stereo_offset, float mix,
                           float level, float morph_x, float morph_y, float morph_z, float out[11]);

/* A design as 64 kinds and 256 numbers (frequency, q, a, b of each point), state by state; with two axes states 4 to 7 are ignored. Answers the
 * table's active sections and writes its 320 numbers and its gain. It refuses nothing. */
uint32_t sentivolus_table(const uint32_t kinds[64], const float numbers[256], bool three_axes, float gain_db, float sections[320], float *gain);

/* A design's point blended at x, y and z, each held to 0 .. 1: octaves, damping, high, band, low. Answers 0, or 11 for a point above 7. A NaN x, y or
 * z gives NaN. With two axes z is ignored, a NaN too. */
uint32_t sentivolus_section(const uint32_t kinds[64], const float numbers[256], bool three_axes, float gain_db, size_t point,
                            float x, float y, float z, float out[5]);

/* One point by itself: octaves, damping, high, band, low. */
void sentivolus_point(uint32_t kind, float frequency, float q, float a, float b, float out[5]);

/* A slot's ring at a rate: 1,024 to 65,536 cells, a power of two; 0 for a refused rate. */
size_t sentivolus_ring_len(float rate);

/* The cutoff of a pitch in cycles a sample, 0.49 at most; whether it was greater before that cap (equal is not, NaN is not); and the
 * integrator's gain tan(pi x the cutoff). reference_over_rate is the setup's reference / rate. */
float sentivolus_ratio_of(float pitch, float reference_over_rate);
bool sentivolus_over(float pitch, float reference_over_rate);
float sentivolus_gain(float pitch, float reference_over_rate);

/* A read of a slot's ring, `delay` samples back from the cursor, held to 2 .. len - 3: 0 where len is no power of two from 1,024 to 65,536 or the
 * slot ends past the list. */
float sentivolus_read(const float *buf, size_t buf_len, size_t len, size_t cursor, size_t slot, float delay);

/* The teeth of a chord read together, each cell that they need once: tap i is what sentivolus_read gives at delay 1 / (ratio x sentivolus_exp2(offset)),
 * those past the last tooth are 0. `ratio` is in cycles a sample and taken as it is. Answers the size of the set of those cells, 0 where sentivolus_read
 * gives 0 for want of a ring. It refuses nothing: a count above 8 reads 8, one of 0 none. */
size_t sentivolus_chord_read(const float *buf, size_t buf_len, size_t len, size_t cursor, size_t slot, float ratio,
                             uint32_t count, const float offsets[8], float taps[8]);

/* One state-variable stage with gain g and damping k: band, low, and the states ic1 and ic2 after it. */
void sentivolus_svf(float ic1, float ic2, float x, float g, float k, float out[4]);

/* The float functions that the filters are made of, for comparison by running. Of every finite x, held to -3 .. 3, sentivolus_soft_clip gives
 * x (x^2 + 27) / (9 x^2 + 27) with an error of at most 2^-22, which is proved; measured over every float it is at most 3.37 x 2^-24. */
float sentivolus_max(float a, float b);  /* of a NaN and a number the number; -0 is below +0; so min */
float sentivolus_min(float a, float b);
float sentivolus_exp2(float v);          /* v held to -12 .. 12, NaN as -12 */
float sentivolus_tan(float w);           /* near tan(w) for 0 .. 0.49 pi */
float sentivolus_soft_clip(float x);     /* x held to -3 .. 3, NaN as -3 */
float sentivolus_root(float x);          /* the f32 nearest the square root; NaN below 0 */
float sentivolus_log2(float q);          /* of 1/64 to below 64, in steps of 2^-20; 0 elsewhere */
float sentivolus_saturation_gain(float x, float inv_a); /* of a level x, with one over the knee */
float sentivolus_asym(float x);          /* the asymmetric shaper */
float sentivolus_hermite(float newer, float p0, float p1, float older, float t); /* the cubic from p0 (t = 0) to p1 (t = 1) */

/* ---- 4. The calls ---- */

/* MXCSR without its six flags, at its default. */
#define SENTIVOLUS_MXCSR 0x1F80u
#define SENTIVOLUS_MXCSR_FLAGS 0x3Fu

/* Puts MXCSR at its default where it is not, and answers what it was, for sentivolus_floats_leave. */
static inline unsigned sentivolus_floats_enter(void)
{
    unsigned before = _mm_getcsr();
    if ((before & ~SENTIVOLUS_MXCSR_FLAGS) != SENTIVOLUS_MXCSR)
        _mm_setcsr(SENTIVOLUS_MXCSR);
    return before;
}

/* Gives back the MXCSR that sentivolus_floats_enter answered. */
static inline void sentivolus_floats_leave(unsigned before)
{
    if ((before & ~SENTIVOLUS_MXCSR_FLAGS) != SENTIVOLUS_MXCSR)
        _mm_setcsr(before);
}

/* A setup with reference 440, no clean drive, a pole-zero table of two axes that passes its input, and no chord: a chord comb wants one before it is
 * opened. */
static inline sentivolus_setup sentivolus_new_setup(uint32_t code, float rate, size_t voices, size_t channels)
{
    sentivolus_setup s;
    s.code = code;
    s.rate = rate;
    s.reference = 440.0f;
    s.voices = voices;
    s.channels = channels;
    s.clean = false;
    s.table.active = 0;
    s.table.gain = 1.0f;
    for (size_t i = 0; i < SENTIVOLUS_SECTIONS; i++)
        s.table.sections[i] = 0.0f;
    s.table.three_axes = false;
    s.chord.count = 0;
    for (size_t i = 0; i < SENTIVOLUS_TEETH; i++)
        s.chord.offsets[i] = 0.0f;
    return s;
}

/* The archive's default settings. */
static inline sentivolus_params sentivolus_default_params(void)
{
    float n[SENTIVOLUS_PARAMS];
    sentivolus_params p;
    unsigned before = sentivolus_floats_enter();
    sentivolus_defaults(n);
    sentivolus_floats_leave(before);
    p.resonance = n[0];
    p.drive = n[1];
    p.saturation = n[2];
    p.character = n[3];
    p.stereo_offset = n[4];
    p.mix = n[5];
    p.level = n[6];
    p.morph_x = n[7];
    p.morph_y = n[8];
    p.morph_z = n[9];
    return p;
}

/* A setup and a bank's lists as the archive's symbols take them, and a setup as they write it. */
#define SENTIVOLUS_SETUP_OF(s) \
    (s)->code, (s)->rate, (s)->reference, (s)->voices, (s)->channels, (s)->clean, \
    (s)->table.active, (s)->table.three_axes, (s)->table.sections, (s)->table.gain, (s)->chord.count, (s)->chord.offsets
#define SENTIVOLUS_LISTS_OF(b) (b)->targets, (b)->targets_len, (b)->records, (b)->records_len, (b)->delay, (b)->delay_len
#define SENTIVOLUS_SETUP_TO(s) \
    &(s)->code, &(s)->rate, &(s)->reference, &(s)->voices, &(s)->channels, &(s)->clean, \
    &(s)->table.active, &(s)->table.three_axes, (s)->table.sections, &(s)->table.gain, &(s)->chord.count, (s)->chord.offsets

/* 0 for a setup that can be opened, or 1 to 5 or 16. */
static inline sentivolus_refusal sentivolus_setup_check(const sentivolus_setup *s)
{
    float none = 0.0f;
    unsigned before = sentivolus_floats_enter();
    /* of empty lists `store` is the answer once the setup is right */
    uint32_t answer = sentivolus_open(SENTIVOLUS_SETUP_OF(s), &none, 0, &none, 0, &none, 0);
    sentivolus_floats_leave(before);
    return answer == SENTIVOLUS_REFUSED_STORE ? SENTIVOLUS_ACCEPTED : (sentivolus_refusal)answer;
}

/* The lengths that a setup asks for, in elements; 0 for a setup that is refused. */
static inline size_t sentivolus_targets_len(const sentivolus_setup *s)
{
    return sentivolus_setup_check(s) ? 0 : SENTIVOLUS_TARGETS * s->voices;
}

static inline size_t sentivolus_records_len(const sentivolus_setup *s)
{
    return sentivolus_setup_check(s) ? 0 : SENTIVOLUS_RECORD * s->voices * s->channels;
}

static inline size_t sentivolus_delay_len(const sentivolus_setup *s)
{
    unsigned before = sentivolus_floats_enter();
    size_t ring = sentivolus_ring_len(s->rate);
    sentivolus_floats_leave(before);
    return sentivolus_setup_check(s) ? 0 : ring * s->voices * s->channels;
}

static inline size_t sentivolus_counts_len(const sentivolus_setup *s)
{
    return sentivolus_setup_check(s) ? 0 : s->voices * s->channels;
}

static inline size_t sentivolus_file_len(const sentivolus_setup *s)
{
    unsigned before = sentivolus_floats_enter();
    size_t bytes = sentivolus_park_len(SENTIVOLUS_SETUP_OF(s));
    sentivolus_floats_leave(before);
    return bytes;
}

/* Opens a bank on the lent lists: every voice at the defaults and started, cursor 0. Refusals 1 to 6. */
static inline sentivolus_refusal sentivolus_bank_open(const sentivolus_setup *s, sentivolus_bank *b)
{
    unsigned before = sentivolus_floats_enter();
    uint32_t answer = sentivolus_open(SENTIVOLUS_SETUP_OF(s), SENTIVOLUS_LISTS_OF(b));
    sentivolus_floats_leave(before);
    if (answer == SENTIVOLUS_ACCEPTED)
        b->cursor = 0;
    return (sentivolus_refusal)answer;
}

/* Sets one voice: its filter glides there. Writes targets alone. Refusals 1 to 8; 6 measures targets alone. */
static inline sentivolus_refusal sentivolus_bank_set(const sentivolus_setup *s, sentivolus_bank *b, size_t voice, const sentivolus_params *p)
{
    unsigned before = sentivolus_floats_enter();
    uint32_t answer = sentivolus_set(SENTIVOLUS_SETUP_OF(s), b->targets, b->targets_len, voice,
                                     p->resonance, p->drive, p->saturation, p->character, p->stereo_offset, p->mix,
                                     p->level, p->morph_x, p->morph_y, p->morph_z);
    sentivolus_floats_leave(before);
    return (sentivolus_refusal)answer;
}

/* Starts one voice: its settings without a glide, its states and rings silent, its peaks 0. Refusals 1 to 7. */
static inline sentivolus_refusal sentivolus_bank_start(const sentivolus_setup *s, sentivolus_bank *b, size_t voice)
{
    unsigned before = sentivolus_floats_enter();
    uint32_t answer = sentivolus_start(SENTIVOLUS_SETUP_OF(s), SENTIVOLUS_LISTS_OF(b), voice);
    sentivolus_floats_leave(before);
    return (sentivolus_refusal)answer;
}

/* Filters a block of audio in place, frames x channels x voices samples; moves the bank's cursor; writes to counts, channels x voices numbers, how
 * often each slot was over the pitch ceiling. Refusals 1 to 6, 9 and 10. An accepted block renders all its frames. */
static inline sentivolus_refusal sentivolus_bank_block(const sentivolus_setup *s, sentivolus_bank *b, const sentivolus_input *in,
                                                       float *audio, size_t audio_len, uint32_t *counts, size_t counts_len)
{
    size_t cursor = b->cursor, rendered = 0;
    unsigned before = sentivolus_floats_enter();
    uint32_t answer = sentivolus_block(SENTIVOLUS_SETUP_OF(s), &cursor, SENTIVOLUS_LISTS_OF(b), in->frames, in->pitch, in->pitch_len,
                                       in->steered, in->x, in->x_len, in->y, in->y_len, audio, audio_len, counts, counts_len, &rendered);
    sentivolus_floats_leave(before);
    b->cursor = cursor;
    return (sentivolus_refusal)answer;
}

/* Auditions a block: audio and counts become what sentivolus_bank_block would make of them, and the bank stays as it is. scratch has lists as long as
 * the bank's, whatever they hold; afterwards it is, cursor included, the bank that the block would leave, so that to go on with it is to have committed
 * the block. Refusals 1 to 6, 9, 10 and then 14. */
static inline sentivolus_refusal sentivolus_bank_audition(const sentivolus_setup *s, const sentivolus_bank *b, const sentivolus_input *in,
                                                          sentivolus_bank *scratch, float *audio, size_t audio_len,
                                                          uint32_t *counts, size_t counts_len)
{
    size_t cursor = 0, rendered = 0;
    unsigned before = sentivolus_floats_enter();
    uint32_t answer = sentivolus_audition(SENTIVOLUS_SETUP_OF(s), b->cursor, SENTIVOLUS_LISTS_OF(b), &cursor, SENTIVOLUS_LISTS_OF(scratch),
                                          in->frames, in->pitch, in->pitch_len, in->steered, in->x, in->x_len, in->y, in->y_len,
                                          audio, audio_len, counts, counts_len, &rendered);
    sentivolus_floats_leave(before);
    if (answer == SENTIVOLUS_ACCEPTED)
        scratch->cursor = cursor;
    return (sentivolus_refusal)answer;
}

/* A slot's peak: the greatest |sample| that blocks have handed back for this voice on this channel since the voice was started, 0 before the first. A
 * NaN sample leaves it, an infinite one makes it infinite. 0 for a slot that the setup or the records have not. */
static inline float sentivolus_bank_peak(const sentivolus_setup *s, const sentivolus_bank *b, size_t channel, size_t voice)
{
    size_t slot = channel * s->voices + voice;
    if (channel >= s->channels || voice >= s->voices || slot >= b->records_len / SENTIVOLUS_RECORD)
        return 0.0f;
    return b->records[SENTIVOLUS_RECORD * slot + SENTIVOLUS_PEAK];
}

/* Parks a bank in a file of sentivolus_file_len(s) bytes. The bank stays as it is. Refusals 1 to 6 and then 15; 6 measures the file too. A chord comb
 * always meets 15. A voice whose morph_z was not +0 meets it until it is set to +0 and started: a glide alone does not come to 0. */
static inline sentivolus_refusal sentivolus_bank_park(const sentivolus_setup *s, const sentivolus_bank *b, uint8_t *file, size_t file_len)
{
    unsigned before = sentivolus_floats_enter();
    uint32_t answer = sentivolus_park(SENTIVOLUS_SETUP_OF(s), b->cursor, SENTIVOLUS_LISTS_OF(b), file, file_len);
    sentivolus_floats_leave(before);
    return (sentivolus_refusal)answer;
}

/* The setup of a parked file, from which the lengths of the lists follow, and its cursor unless that is NULL. Refusals as of
 * sentivolus_bank_restore, without 6. */
static inline sentivolus_refusal sentivolus_file_setup(const uint8_t *file, size_t file_len, sentivolus_setup *s, size_t *cursor)
{
    sentivolus_setup parked = sentivolus_new_setup(0, 0.0f, 0, 0);
    size_t at = 0;
    unsigned before = sentivolus_floats_enter();
    uint32_t answer = sentivolus_parked_setup(file, file_len, SENTIVOLUS_SETUP_TO(&parked), &at);
    sentivolus_floats_leave(before);
    if (answer == SENTIVOLUS_ACCEPTED) {
        *s = parked;
        if (cursor)
            *cursor = at;
    }
    return (sentivolus_refusal)answer;
}

/* Restores a parked bank: *s, the lists and b->cursor become, bit by bit, those that were parked, whatever they were; the face at z = 1 and the chord,
 * which were ignored, become 0. Refusals, in this order: 12; 13 for a kind 1 part missing or doubled or the clean word; 1 to 5 of the file's setup,
 * in which a chord comb's code meets 5; 13 for any other block; 6 of the lists. */
static inline sentivolus_refusal sentivolus_bank_restore(const uint8_t *file, size_t file_len, sentivolus_setup *s, sentivolus_bank *b)
{
    sentivolus_setup parked = sentivolus_new_setup(0, 0.0f, 0, 0);
    size_t cursor = 0;
    unsigned before = sentivolus_floats_enter();
    uint32_t answer = sentivolus_restore(file, file_len, SENTIVOLUS_LISTS_OF(b), SENTIVOLUS_SETUP_TO(&parked), &cursor);
    sentivolus_floats_leave(before);
    if (answer == SENTIVOLUS_ACCEPTED) {
        *s = parked;
        b->cursor = cursor;
    }
    return (sentivolus_refusal)answer;
}

/* A design of two axes, every point a Bypass at 1,000 Hz, gain 0 dB. */
static inline sentivolus_design sentivolus_new_design(void)
{
    sentivolus_design d;
    sentivolus_design_point bypass = {SENTIVOLUS_BYPASS, 1000.0f, 0.70710678f, 0.0f, 0.0f};
    for (size_t i = 0; i < SENTIVOLUS_STATES; i++)
        for (size_t j = 0; j < SENTIVOLUS_POINTS; j++)
            d.points[i][j] = bypass;
    d.gain_db = 0.0f;
    d.three_axes = false;
    return d;
}

/* A design's points as the archive takes them. */
static inline void sentivolus_design_numbers(const sentivolus_design *d, uint32_t kinds[64], float numbers[256])
{
    for (size_t i = 0; i < SENTIVOLUS_STATES; i++)
        for (size_t j = 0; j < SENTIVOLUS_POINTS; j++) {
            const sentivolus_design_point *p = &d->points[i][j];
            size_t at = SENTIVOLUS_POINTS * i + j;
            kinds[at] = p->kind;
            numbers[4 * at] = p->frequency;
            numbers[4 * at + 1] = p->q;
            numbers[4 * at + 2] = p->a;
            numbers[4 * at + 3] = p->b;
        }
}

/* The table of a design, with as many axes. Points that are Bypass in all of its states, four or eight, are left out. */
static inline sentivolus_pole_zero_table sentivolus_design_table(const sentivolus_design *d)
{
    uint32_t kinds[64];
    float numbers[256];
    sentivolus_pole_zero_table t;
    sentivolus_design_numbers(d, kinds, numbers);
    unsigned before = sentivolus_floats_enter();
    t.active = sentivolus_table(kinds, numbers, d->three_axes, d->gain_db, t.sections, &t.gain);
    sentivolus_floats_leave(before);
    t.three_axes = d->three_axes;
    return t;
}

/* A point of a design at x, y and z, each held to 0 .. 1: out becomes octaves, damping, high, band, low. With two axes z is ignored. Refusal 11. */
static inline sentivolus_refusal sentivolus_design_section(const sentivolus_design *d, size_t point, float x, float y, float z, float out[5])
{
    uint32_t kinds[64];
    float numbers[256];
    sentivolus_design_numbers(d, kinds, numbers);
    unsigned before = sentivolus_floats_enter();
    uint32_t answer = sentivolus_section(kinds, numbers, d->three_axes, d->gain_db, point, x, y, z, out);
    sentivolus_floats_leave(before);
    return (sentivolus_refusal)answer;
}

#undef SENTIVOLUS_SETUP_OF
#undef SENTIVOLUS_LISTS_OF
#undef SENTIVOLUS_SETUP_TO

#ifdef __cplusplus
}
#endif
#endif
