/* Reads a report of a campaign for what a row of runs.tsv asks of it. It takes what python/sift/reports/reading.py takes, line by
 * line and byte by byte, and tells the same: that module reads in its place where this isn't built, and where it takes nothing. */
#include <stdbool.h>
#include <stddef.h>
#include <stdint.h>
#include <string.h>

enum { FEWEST = 4, UNITS = 8, WORDS = 64, CONFIGURATIONS = 1 << UNITS };
#define NONE UINT64_MAX /* no frame */

/* What is known of a mission's flights. */
struct schedule {
    uint64_t frames;
    uint64_t words;           /* of all outputs, at most 64 */
    uint64_t held[UNITS + 1]; /* by the size of a configuration which words may differ, once it was told: bit k is word k */
    const char *due;          /* of each frame the words that are due, as a report has them, all of one length */
};

/* A unit that goes wrong: what is asked of it, and what is found. */
struct fault {
    uint64_t unit, begin;                 /* from which frame on */
    uint64_t caught;                      /* the first frame from there on in which a unit caught it, or NONE */
    uint64_t by;                          /* the units that did: bit u is unit u */
    uint64_t out;                         /* the first frame of all whose configuration it isn't in, or NONE */
    uint64_t inside[CONFIGURATIONS / 64]; /* the configurations of the frames from there on: bit c is that of the units of c */
};

/* What came of the flight. */
struct outcome {
    uint64_t margin;       /* 1 where its last frame has it */
    uint64_t wrong;        /* how many output words of all frames differ from those that are due, where they are compared */
    uint64_t first, words; /* the first frame that has some, or NONE, and which words */
    uint64_t last;         /* at which byte the last line begins */
};

/* What is left of a text. */
struct text {
    const char *at, *end;
};

struct reading {
    const struct schedule *schedule;
    struct fault *faults;
    size_t count;
    struct outcome *outcome;
    struct text text;
    char begin[32];        /* of the lines of this frame */
    size_t begin_length;
    size_t words_length;   /* of the words that are due in a frame */
    uint64_t frame;        /* its number */
    uint64_t untold;       /* up to which frame units told configurations: it and those behind it have the next that is told */
    uint64_t held;         /* the words that may differ by now */
    unsigned units;        /* how many there are, or 0 before it is known */
    unsigned version;      /* of the report, or 0 before it is known */
    struct text inputs;    /* the input words of the unit before: mostly the next one has the same */
};

/* What the lines of a frame tell. */
struct frame {
    unsigned configuration; /* that of the lowest unit that tells one, or 0 */
    unsigned named;         /* the units that are named in it */
    unsigned sizes;         /* of the configurations that are told: bit s is size s */
    unsigned by[UNITS];     /* of each unit the units that caught it */
    uint64_t wrong;         /* the output words that some unit has other than they are due */
};

/* Texts. */

static size_t left(const struct text *text) { return (size_t)(text->end - text->at); }

/* Steps over these bytes, where they come next. */
static inline bool skip_bytes(struct text *text, const char *bytes, size_t length)
{
    if (left(text) < length || memcmp(text->at, bytes, length) != 0)
        return false;
    text->at += length;
    return true;
}

/* The same of a literal, whose length the compiler knows. */
#define skip(text, literal) skip_bytes(text, "" literal, sizeof(literal) - 1)

static bool is_next(const struct text *text, char byte) { return text->at < text->end && *text->at == byte; }

static bool is_digit(char byte) { return byte >= '0' && byte <= '9'; }

static bool is_hexadecimal(char byte) { return is_digit(byte) || (byte >= 'a' && byte <= 'f'); }

/* Steps over a number without needless zeros. */
static bool skip_number(struct text *text)
{
    const char *begin = text->at;
    while (text->at < text->end && is_digit(*text->at))
        text->at++;
    return text->at - begin == 1 || (text->at > begin && *begin != '0');
}

static bool skip_signed(struct text *text)
{
    skip(text, "-");
    return skip_number(text);
}

/* Steps over the digit of a unit, and adds it to those before, of which none may be as large. */
static bool read_unit(struct text *text, unsigned *units)
{
    if (text->at == text->end || *text->at < '0' || *text->at >= '0' + UNITS)
        return false;
    unsigned unit = (unsigned)(*text->at - '0');
    if (*units >> unit)
        return false;
    *units |= 1u << unit;
    text->at++;
    return true;
}

/* Steps over the units of a configuration. */
static bool read_units(struct text *text, unsigned *units)
{
    *units = 0;
    while (read_unit(text, units)) {
    }
    return *units != 0;
}

static bool skip_word(struct text *text)
{
    if (left(text) < 4)
        return false;
    for (int digit = 0; digit < 4; digit++)
        if (!is_hexadecimal(text->at[digit]))
            return false;
    text->at += 4;
    return true;
}

/* Steps over words, or over the dash that stands for none. */
static bool skip_words(struct text *text)
{
    if (skip(text, "-"))
        return true;
    do
        if (!skip_word(text))
            return false;
    while (skip(text, ","));
    return true;
}

/* Lines. */

/* The input words of a unit, and the space behind them. */
static bool read_inputs(struct reading *reading)
{
    struct text *text = &reading->text, *inputs = &reading->inputs;
    const char *begin = text->at;
    if (left(inputs) > 0 && skip_bytes(text, inputs->at, left(inputs)))
        return true;
    if (!skip_words(text) || !skip(text, " "))
        return false;
    inputs->at = begin;
    inputs->end = text->at;
    return true;
}

/* The output words of a unit: which of them are others than are due. There must be as many. */
static bool read_outputs(struct reading *reading, struct frame *frame)
{
    struct text *text = &reading->text;
    const char *due = reading->schedule->due + reading->frame * reading->words_length;
    if (skip_bytes(text, due, reading->words_length))
        return true;
    for (uint64_t word = 0; word < reading->schedule->words; word++, due += 5) {
        if ((word > 0 && !skip(text, ",")) || !skip_word(text))
            return false;
        if (memcmp(text->at - 4, due, 4) != 0)
            frame->wrong |= UINT64_C(1) << word;
    }
    return reading->schedule->words > 0;
}

/* The units that a unit caught; in version 2 behind each of them the letters of the kinds, and a comma before the next. */
static bool read_caught(struct reading *reading, unsigned *caught)
{
    struct text *text = &reading->text;
    *caught = 0;
    if (skip(text, "-"))
        return true;
    for (;;) {
        if (!read_unit(text, caught))
            return false;
        const char *letters = text->at;
        skip(text, "p");
        skip(text, "r");
        skip(text, "c");
        unsigned version = text->at > letters ? 2 : 1;
        if (reading->version != 0 && reading->version != version)
            return false;
        reading->version = version;
        if (is_next(text, '\n'))
            return true;
        if (version == 2 && !skip(text, ","))
            return false;
    }
}

/* What the line of a unit tells behind the unit. */
static bool read_account(struct reading *reading, struct frame *frame, unsigned unit)
{
    struct text *text = &reading->text;
    unsigned configuration, caught;
    if (skip(text, "faulty\n") || skip(text, "idle\n"))
        return true;
    if (!skip(text, "cfg=") || !read_units(text, &configuration) || !skip(text, " clk=") || !skip_signed(text))
        return false;
    if (!skip(text, " in=") || !read_inputs(reading) || !skip(text, "out=") || !read_outputs(reading, frame))
        return false;
    if (!skip(text, " bad=") || !read_caught(reading, &caught) || !skip(text, "\n"))
        return false;
    if (frame->configuration == 0)
        frame->configuration = configuration;
    frame->sizes |= 1u << __builtin_popcount(configuration);
    frame->named |= configuration | caught;
    for (; caught != 0; caught &= caught - 1)
        frame->by[__builtin_ctz(caught)] |= 1u << unit;
    return true;
}

static bool read_margin(struct text *text, uint64_t *margin)
{
    *margin = skip(text, " margin=ok\n");
    return *margin != 0 || skip(text, " margin=lost\n");
}

/* What the last line of a frame tells behind the frame's number. */
static bool read_figures(struct reading *reading)
{
    struct text *text = &reading->text;
    if (!skip(text, "skew="))
        return false;
    if (!skip(text, "- slack=-") && !(skip_number(text) && skip(text, " slack=") && skip_signed(text)))
        return false;
    return read_margin(text, &reading->outcome->margin);
}

/* Notes how the lines of the frame begin. */
static void begin_frame(struct reading *reading)
{
    char digits[20]; /* of the greatest number of 64 bits */
    size_t count = 0;
    uint64_t number = reading->frame;
    do
        digits[count++] = (char)('0' + number % 10);
    while (number /= 10);
    char *at = reading->begin;
    *at++ = 'f';
    *at++ = '=';
    while (count > 0)
        *at++ = digits[--count];
    *at++ = ' ';
    reading->begin_length = (size_t)(at - reading->begin);
}

/* The lines of a frame. */
static bool read_lines(struct reading *reading, struct frame *frame)
{
    struct text *text = &reading->text;
    unsigned unit = 0;
    for (;; unit++) {
        if (!skip_bytes(text, reading->begin, reading->begin_length))
            return false;
        if (!skip(text, "u="))
            break;
        if (unit == UNITS || !is_next(text, (char)('0' + unit)))
            return false;
        text->at++;
        if (!skip(text, " ") || !read_account(reading, frame, unit))
            return false;
    }
    if (unit < FEWEST || (reading->units != 0 && reading->units != unit))
        return false;
    reading->units = unit;
    return frame->named >> unit == 0 && read_figures(reading);
}

/* What is asked of a flight. */

/* The configuration of the frames up to this one of which none was told yet. */
static void note_configuration(struct reading *reading, unsigned configuration, uint64_t frames)
{
    for (size_t place = 0; place < reading->count; place++) {
        struct fault *fault = &reading->faults[place];
        if (reading->untold < frames && fault->begin < frames)
            fault->inside[configuration / 64] |= UINT64_C(1) << configuration % 64;
        if (fault->out == NONE && !(configuration >> fault->unit & 1))
            fault->out = reading->untold;
    }
    reading->untold = frames;
}

static void note_frame(struct reading *reading, const struct frame *frame)
{
    struct outcome *outcome = reading->outcome;
    for (unsigned size = 0; size <= UNITS; size++)
        if (frame->sizes >> size & 1)
            reading->held |= reading->schedule->held[size];
    uint64_t wrong = frame->wrong & ~reading->held;
    if (wrong != 0 && outcome->first == NONE)
        outcome->first = reading->frame;
    outcome->wrong += (uint64_t)__builtin_popcountll(wrong);
    outcome->words |= wrong;
    if (frame->configuration != 0)
        note_configuration(reading, frame->configuration, reading->frame + 1);
    for (size_t place = 0; place < reading->count; place++) {
        struct fault *fault = &reading->faults[place];
        if (fault->caught == NONE && fault->begin <= reading->frame && frame->by[fault->unit] != 0) {
            fault->caught = reading->frame;
            fault->by = frame->by[fault->unit];
        }
    }
}

/* The line behind the last frame, and nothing behind it. */
static bool read_end(struct reading *reading)
{
    struct text *text = &reading->text;
    unsigned last;
    uint64_t margin;
    if (!skip(text, "end frames=") || !skip_bytes(text, reading->begin + 2, reading->begin_length - 2))
        return false;
    if (!skip(text, "cfg=") || !read_units(text, &last) || last >> reading->units != 0 || !read_margin(text, &margin))
        return false;
    note_configuration(reading, last, reading->frame);
    return text->at == text->end;
}

int read_outcome_1(const char *report, size_t length, const struct schedule *schedule, struct fault *faults, size_t count, struct outcome *outcome);

/* Reads a report, and tells what came of these faults and of the flight; or 0 where it isn't a whole report of this schedule. Each
 * fault comes with its unit and its begin. The number in the name is that of these structures: another one gets another. */
int read_outcome_1(const char *report, size_t length, const struct schedule *schedule, struct fault *faults, size_t count, struct outcome *outcome)
{
    struct reading reading = {.schedule = schedule, .faults = faults, .count = count, .outcome = outcome};
    reading.text = (struct text){report, report + length};
    reading.inputs = (struct text){report, report};
    reading.words_length = schedule->words > 0 ? (size_t)schedule->words * 5 - 1 : 1;
    *outcome = (struct outcome){.first = NONE};
    if (schedule->frames == 0 || schedule->words > WORDS)
        return 0;
    for (size_t place = 0; place < count; place++) {
        if (faults[place].unit >= UNITS)
            return 0;
        faults[place] = (struct fault){.unit = faults[place].unit, .begin = faults[place].begin, .caught = NONE, .out = NONE};
    }
    for (; reading.frame < schedule->frames; reading.frame++) {
        struct frame frame = {0};
        begin_frame(&reading);
        if (!read_lines(&reading, &frame))
            return 0;
        note_frame(&reading, &frame);
    }
    begin_frame(&reading);
    outcome->last = (uint64_t)(reading.text.at - report);
    return read_end(&reading);
}
