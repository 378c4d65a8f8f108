/* Opens a bank of four voices in stereo, renders a second of a chord through a sweeping transistor ladder, and prints what it did.
 * Half-way the bank is parked and goes on as restored, which changes no bit of the sound. At the end a block is auditioned, which leaves the bank.
 * With a file's name it also writes the sound there, as 16-bit WAV.
 *
 * Build and run, from the repository's root, once `./prove.sh sentivolus` has made the archive:
 *   cc -std=c99 -O2 c/example.c target/staticlib/libsentivolus.a -o target/example && target/example chord.wav
 */
#include "sentivolus.h"
#include <stdio.h>
#include <stdlib.h>
#include <string.h>

enum { RATE = 48000, VOICES = 4, CHANNELS = 2, BLOCK = 480, BLOCKS = RATE / BLOCK };

/* A minor seventh: the notes in hertz. */
static const float notes[VOICES] = {220.0f, 261.626f, 329.628f, 391.995f};

static float pitch[BLOCK * VOICES];
static float audio[BLOCK * CHANNELS * VOICES];
static uint32_t counts[CHANNELS * VOICES];
static float mix[RATE * CHANNELS];

static void *memory(size_t bytes)
{
    void *list = malloc(bytes);
    if (!list) {
        fprintf(stderr, "example: no memory for %lu bytes\n", (unsigned long)bytes);
        exit(1);
    }
    return list;
}

/* Ends the program where a call is refused. */
static void must(sentivolus_refusal refusal, const char *call)
{
    if (refusal == SENTIVOLUS_ACCEPTED)
        return;
    fprintf(stderr, "example: %s refused %d, %s\n", call, (int)refusal, sentivolus_refusal_word(refusal));
    exit(1);
}

/* The lists that the setup asks for. */
static void make_lists(const sentivolus_setup *setup, sentivolus_bank *bank)
{
    bank->targets_len = sentivolus_targets_len(setup);
    bank->records_len = sentivolus_records_len(setup);
    bank->delay_len = sentivolus_delay_len(setup);
    bank->targets = (float *)memory(bank->targets_len * sizeof(float));
    bank->records = (float *)memory(bank->records_len * sizeof(float));
    bank->delay = (float *)memory(bank->delay_len * sizeof(float));
}

static void free_lists(sentivolus_bank *bank)
{
    free(bank->targets);
    free(bank->records);
    free(bank->delay);
}

/* Parks the bank and restores it in new lists, all else from the file. Answers the file's bytes. */
static size_t park_and_restore(sentivolus_setup *setup, sentivolus_bank *bank)
{
    size_t bytes = sentivolus_file_len(setup);
    uint8_t *file = (uint8_t *)memory(bytes);
    must(sentivolus_bank_park(setup, bank, file, bytes), "park");
    free_lists(bank);
    must(sentivolus_file_setup(file, bytes, setup, NULL), "file_setup");
    make_lists(setup, bank);
    must(sentivolus_bank_restore(file, bytes, setup, bank), "restore");
    free(file);
    return bytes;
}

/* The sawtooth of each voice on both channels, and a cutoff that rises two octaves a second from 24 semitones above the reference. */
static void feed(size_t block, float phase[VOICES])
{
    for (size_t f = 0; f < BLOCK; f++)
        for (size_t v = 0; v < VOICES; v++) {
            float saw = 0.5f * phase[v] - 0.25f;
            pitch[f * VOICES + v] = 93.0f + 24.0f * (float)(block * BLOCK + f) / (float)RATE;
            for (size_t c = 0; c < CHANNELS; c++)
                audio[(f * CHANNELS + c) * VOICES + v] = saw;
            phase[v] += notes[v] / (float)RATE;
            if (phase[v] >= 1.0f)
                phase[v] -= 1.0f;
        }
}

/* Adds the voices of each channel into the mix. */
static void take(size_t block)
{
    for (size_t i = 0; i < BLOCK * CHANNELS; i++)
        for (size_t v = 0; v < VOICES; v++)
            mix[block * BLOCK * CHANNELS + i] += audio[i * VOICES + v];
}

/* How often a channel's voices were over the pitch ceiling in the last block. */
static unsigned long over(size_t channel)
{
    unsigned long sum = 0;
    for (size_t v = 0; v < VOICES; v++)
        sum += counts[channel * VOICES + v];
    return sum;
}

static void put(FILE *f, unsigned long number, int bytes)
{
    for (; bytes > 0; bytes--, number >>= 8)
        fputc((int)(number & 255), f);
}

static int write_wav(const char *name)
{
    FILE *f = fopen(name, "wb");
    unsigned long bytes = 2ul * RATE * CHANNELS;
    if (!f)
        return 0;
    fputs("RIFF", f);
    put(f, 36 + bytes, 4);
    fputs("WAVEfmt ", f);
    put(f, 16, 4); /* what follows describes PCM: channels, rate, bytes a second, bytes a frame, bits a sample */
    put(f, 1, 2);
    put(f, CHANNELS, 2);
    put(f, RATE, 4);
    put(f, bytes, 4);
    put(f, 2 * CHANNELS, 2);
    put(f, 16, 2);
    fputs("data", f);
    put(f, bytes, 4);
    for (size_t i = 0; i < RATE * CHANNELS; i++) {
        float x = mix[i] < -1.0f ? -1.0f : mix[i] > 1.0f ? 1.0f : mix[i];
        put(f, (unsigned long)(long)(32767.0f * x) & 65535ul, 2);
    }
    return fclose(f) == 0;
}

/* A checksum of the mix's bits (FNV-1a): two renders that cancel have the same. */
static unsigned checksum(void)
{
    uint32_t sum = 2166136261u;
    for (size_t i = 0; i < RATE * CHANNELS; i++) {
        uint32_t bits;
        memcpy(&bits, &mix[i], sizeof bits);
        for (int shift = 0; shift < 32; shift += 8)
            sum = (sum ^ (bits >> shift & 255u)) * 16777619u;
    }
    return sum;
}

/* The largest magnitude of a channel. */
static float peak(size_t channel)
{
    float most = 0.0f;
    for (size_t i = channel; i < RATE * CHANNELS; i += CHANNELS) {
        float x = mix[i] < 0.0f ? -mix[i] : mix[i];
        if (x > most)
            most = x;
    }
    return most;
}

int main(int count, char **words)
{
    sentivolus_setup setup = sentivolus_new_setup(SENTIVOLUS_TRANSISTOR_LADDER, (float)RATE, VOICES, CHANNELS);
    sentivolus_params params = sentivolus_default_params();
    sentivolus_bank bank, scratch;
    sentivolus_input input;
    float phase[VOICES] = {0.0f};
    unsigned long swept = 0;

    make_lists(&setup, &bank);
    must(sentivolus_bank_open(&setup, &bank), "open");
    printf("sentivolus %u: %d voices, %d channels at %d Hz\n", (unsigned)sentivolus_version(), VOICES, CHANNELS, RATE);
    printf("lists: %lu targets, %lu records, %lu delay cells\n", (unsigned long)bank.targets_len, (unsigned long)bank.records_len,
           (unsigned long)bank.delay_len);

    params.resonance = 0.6f;
    params.drive = 0.3f;
    params.stereo_offset = 2.0f;
    params.level = 0.4f;
    for (size_t v = 0; v < VOICES; v++) {
        must(sentivolus_bank_set(&setup, &bank, v, &params), "set");
        must(sentivolus_bank_start(&setup, &bank, v), "start");
    }

    input.frames = BLOCK;
    input.pitch = pitch;
    input.pitch_len = BLOCK * VOICES;
    input.steered = false;
    input.x = input.y = NULL;
    input.x_len = input.y_len = 0;
    for (size_t block = 0; block < BLOCKS; block++) {
        if (block == BLOCKS / 2)
            printf("parked after %lu blocks in a file of %lu bytes, restored in new lists\n", (unsigned long)block,
                   (unsigned long)park_and_restore(&setup, &bank));
        feed(block, phase);
        must(sentivolus_bank_block(&setup, &bank, &input, audio, BLOCK * CHANNELS * VOICES, counts, CHANNELS * VOICES), "block");
        take(block);
        swept += over(0) + over(1);
    }
    printf("rendered %d blocks of %d frames: peaks %.4f left, %.4f right, checksum %08x\n", BLOCKS, BLOCK, (double)peak(0), (double)peak(1),
           checksum());
    printf("peaks of the voices since they started:");
    for (size_t c = 0; c < CHANNELS; c++)
        for (size_t v = 0; v < VOICES; v++)
            printf("%s %.4f", v > 0 ? "" : c == 0 ? " left" : ", right", (double)sentivolus_bank_peak(&setup, &bank, c, v));
    printf("\n");

    /* The sweep ends at pitch 117 and the ceiling is near 137.9. At pitch 138 the offset of 2 puts the right channel over it, the left one below: heard on
     * a copy of the bank, before such a block is committed. */
    for (size_t i = 0; i < BLOCK * VOICES; i++)
        pitch[i] = 138.0f;
    make_lists(&setup, &scratch);
    must(sentivolus_bank_audition(&setup, &bank, &input, &scratch, audio, BLOCK * CHANNELS * VOICES, counts, CHANNELS * VOICES), "audition");
    printf("over the pitch ceiling: %lu times in the sweep; auditioned at pitch 138, %lu times left, %lu right\n", swept, over(0), over(1));

    input.frames = 4097;
    printf("a block of 4097 frames is refused: %s\n",
           sentivolus_refusal_word(sentivolus_bank_block(&setup, &bank, &input, audio, BLOCK * CHANNELS * VOICES, counts, CHANNELS * VOICES)));
    free_lists(&bank);
    free_lists(&scratch);
    if (count > 1) {
        if (!write_wav(words[1])) {
            fprintf(stderr, "example: cannot write %s\n", words[1]);
            return 1;
        }
        printf("wrote %s\n", words[1]);
    }
    return 0;
}
