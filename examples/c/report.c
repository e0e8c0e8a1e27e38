/* Prints the report of a tower file under a wind as a table. */
#include "dembyhai.h"

#include <errno.h>
#include <inttypes.h>
#include <stdio.h>
#include <string.h>

enum { DONE = 0, REFUSED = 1, BAD_WORDS = 2 }; /* exit statuses */

static const char USAGE[] =
    "usage: report FILE K ICE FACTOR PRESSURE...\n"
    "       report --help\n"
    "\n"
    "Prints areas, force, shear and moment of each section of a tower under wind.\n"
    "\n"
    "  FILE      a tower file\n"
    "  K         wind direction, 0 to 23, 15 degrees each; even with three legs\n"
    "  ICE       ice class, 0 (bare) to 5\n"
    "  FACTOR    structure factor in thousandths, 500 to 2000\n"
    "  PRESSURE  in N/m2, 0 to 5000: one for each section from the top, or one\n"
    "            for all\n"
    "\n"
    "Status 0: the table is printed. 1: the file cannot be read, or the tower or\n"
    "the wind is refused. 2: the words are wrong.\n";

/* The meaning of each answer but 0. */
static const char *const MEANINGS[] = {
    [DEMBYHAI_FILE_ENDS] = "the file ends inside or before a field",
    [DEMBYHAI_LEGS] = "legs are neither 3 nor 4",
    [DEMBYHAI_SECTION_COUNT] = "section count is 0 or above 32",
    [DEMBYHAI_SECTION_SIZE] = "a section's width or height breaks its range, or the height is odd",
    [DEMBYHAI_GROUP_COUNT] = "group count is 0 or above 8",
    [DEMBYHAI_GROUP_FIELD] = "a group's kind, width or length breaks its range",
    [DEMBYHAI_BARE_FACE_OVERFULL] = "a section's bare A_S is above A_u",
    [DEMBYHAI_ITEM_COUNT] = "item count is above 64",
    [DEMBYHAI_ITEM_NUMBER] = "an item number came earlier in the file",
    [DEMBYHAI_ITEM_SECTION] = "an item's section does not exist",
    [DEMBYHAI_ITEM_FIELD] = "another item field breaks its range",
    [DEMBYHAI_BYTES_FOLLOW] = "bytes follow the last item",
    [DEMBYHAI_DIRECTION] = "k is above 23, or odd with three legs",
    [DEMBYHAI_ICE_CLASS] = "ice class is above 5",
    [DEMBYHAI_STRUCTURE_FACTOR] = "the structure factor is not 500 to 2000",
    [DEMBYHAI_PRESSURE_COUNT] = "pressures are not one per section",
    [DEMBYHAI_PRESSURE] = "a pressure is above 5000",
    [DEMBYHAI_ICED_FACE_OVERFULL] = "some section's iced A_S is above A_u",
    [DEMBYHAI_ROWS_SHORT] = "the room for the rows is too short",
};

/* One pressure more than any tower takes is as wrong as several. */
struct wind {
    uint32_t direction, ice, factor;
    uint8_t pressures[(DEMBYHAI_MAX_SECTIONS + 1) * DEMBYHAI_PRESSURE_BYTES];
    size_t pressures_length;
};

struct tower_file {
    const char *name;
    uint8_t bytes[DEMBYHAI_MAX_FILE_BYTES + 1]; /* one more shows a file that is too large */
    size_t length;
};

static const char *meaning(uint32_t answer)
{
    const char *found = answer < sizeof MEANINGS / sizeof *MEANINGS ? MEANINGS[answer] : NULL;
    return found != NULL ? found : "no refusal of this call";
}

/* Decimal digits up to the limit and nothing else, or a message. */
static int read_number(const char *name, const char *word, uint32_t limit, uint32_t *result)
{
    uint64_t read = 0;
    size_t digits = strspn(word, "0123456789");
    for (size_t digit = 0; digit < digits && read <= limit; digit++)
        read = 10 * read + (uint64_t)(word[digit] - '0');
    if (digits == 0 || word[digits] != '\0' || read > limit) {
        fprintf(stderr, "report: %s must be a whole number, at most %" PRIu32 ", not '%s'\n", name, limit, word);
        return 0;
    }
    *result = (uint32_t)read;
    return 1;
}

static void put_pressure(struct wind *wind, uint32_t pressure)
{
    if (wind->pressures_length < sizeof wind->pressures) {
        wind->pressures[wind->pressures_length++] = (uint8_t)(pressure >> 8);
        wind->pressures[wind->pressures_length++] = (uint8_t)pressure;
    }
}

/* K, ICE, FACTOR and the pressures, or a message. */
static int read_wind(struct wind *wind, char **words, int count)
{
    uint32_t pressure;
    if (!read_number("K", words[0], UINT32_MAX, &wind->direction) ||
        !read_number("ICE", words[1], UINT32_MAX, &wind->ice) ||
        !read_number("FACTOR", words[2], UINT32_MAX, &wind->factor))
        return 0;
    for (int word = 3; word < count; word++) {
        if (!read_number("PRESSURE", words[word], UINT16_MAX, &pressure))
            return 0;
        put_pressure(wind, pressure);
    }
    return 1;
}

/* A single pressure is for all sections. */
static void spread(struct wind *wind, unsigned sections)
{
    uint32_t pressure = wind->pressures[0] * 256u + wind->pressures[1];
    for (unsigned section = 1; section < sections; section++)
        put_pressure(wind, pressure);
}

/* All bytes of the file, or a message. */
static int read_file(struct tower_file *file)
{
    FILE *stream = fopen(file->name, "rb");
    int failed = stream == NULL;
    if (!failed) {
        file->length = fread(file->bytes, 1, sizeof file->bytes, stream);
        failed = ferror(stream);
    }
    if (failed)
        fprintf(stderr, "report: %s: %s\n", file->name, strerror(errno));
    else if (file->length > DEMBYHAI_MAX_FILE_BYTES)
        fprintf(stderr, "report: %s: too large, a tower file has at most %d bytes\n", file->name,
                DEMBYHAI_MAX_FILE_BYTES);
    if (stream != NULL)
        fclose(stream);
    return !failed && file->length <= DEMBYHAI_MAX_FILE_BYTES;
}

static uint64_t row_number(const uint8_t *rows, size_t section, enum dembyhai_number which)
{
    const uint8_t *byte = rows + section * DEMBYHAI_ROW_BYTES + 8 * (size_t)which;
    uint64_t result = 0;
    for (int place = 0; place < 8; place++)
        result = result << 8 | byte[place];
    return result;
}

static void print_table(const struct tower_file *file, const struct wind *wind, const uint8_t *rows)
{
    size_t sections = wind->pressures_length / DEMBYHAI_PRESSURE_BYTES;
    printf("%s: %zu sections, k %" PRIu32 ", ice class %" PRIu32 ", structure factor %" PRIu32 ".%03" PRIu32 "\n",
           file->name, sections, wind->direction, wind->ice, wind->factor / 1000, wind->factor % 1000);
    printf("section  q N/m2    A_f mm2    A_c mm2    A_p mm2    force N    shear N        moment kN m\n");
    for (size_t section = 0; section < sections; section++) {
        unsigned pressure = wind->pressures[2 * section] * 256u + wind->pressures[2 * section + 1];
        uint64_t moment = row_number(rows, section, DEMBYHAI_MOMENT);
        printf("%7zu %7u", section, pressure);
        for (int which = DEMBYHAI_AREA_FLAT; which <= DEMBYHAI_SHEAR; which++)
            printf(" %10" PRIu64, row_number(rows, section, (enum dembyhai_number)which));
        printf(" %11" PRIu64 ".%06" PRIu64 "\n", moment / 1000000, moment % 1000000);
    }
}

/* Makes the call and prints the table or the refusal. */
static int report(struct tower_file *file, struct wind *wind)
{
    static uint8_t rows[DEMBYHAI_MAX_ROWS_BYTES];
    uint32_t answer = dembyhai_report(file->bytes, file->length, wind->direction, wind->ice, wind->factor,
                                      wind->pressures, wind->pressures_length, rows, sizeof rows);
    if (answer != DEMBYHAI_ACCEPTED) {
        fprintf(stderr, "report: %s: refused %" PRIu32 ": %s\n", file->name, answer, meaning(answer));
        return REFUSED;
    }
    print_table(file, wind, rows);
    if (fflush(stdout) != 0) {
        fprintf(stderr, "report: standard output: %s\n", strerror(errno));
        return REFUSED;
    }
    return DONE;
}

int main(int count, char **words)
{
    static struct tower_file file;
    static struct wind wind;
    if (count == 2 && strcmp(words[1], "--help") == 0) {
        fputs(USAGE, stdout);
        return DONE;
    }
    if (count < 6)
        fprintf(stderr, "report: FILE, K, ICE, FACTOR and PRESSURE are needed\n");
    if (count < 6 || !read_wind(&wind, words + 2, count - 2)) {
        fprintf(stderr, "report: see report --help\n");
        return BAD_WORDS;
    }
    file.name = words[1];
    if (!read_file(&file))
        return REFUSED;
    if (count == 6 && file.length > 1)
        spread(&wind, file.bytes[1]);
    return report(&file, &wind);
}
