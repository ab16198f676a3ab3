/*
 * list FILE: prints the listing of a binary SPI object, a line for each known item.
 *
 *   tools/c-library
 *   gcc -O2 -I include examples/c/list.c target/staticlib/libspi_c.a -o list
 */
#include "spi.h"

#include <stdio.h>

static const char *const kind_words[] = {"element", "attribute", "cdata"};

static struct {
    uint8_t tags[SPI_MOST_RECORDS], kinds[SPI_MOST_RECORDS], depths[SPI_MOST_RECORDS];
    uint16_t parents[SPI_MOST_RECORDS], starts[SPI_MOST_RECORDS], sizes[SPI_MOST_RECORDS];
} lists;

/* One octet more than an object may have, so that a file that is too large is refused as one. */
static uint8_t object[SPI_MOST_OCTETS + 1];

static void print_listing(size_t records)
{
    printf("depth tag kind offset length\n");
    for (size_t i = 0; i < records; i++)
        printf("%u %02X %s %u %u\n", (unsigned)lists.depths[i], (unsigned)lists.tags[i], kind_words[lists.kinds[i]],
               (unsigned)lists.starts[i], (unsigned)lists.sizes[i]);
    printf("records %zu\n", records);
}

int main(int count, char **words)
{
    FILE *file = count == 2 ? fopen(words[1], "rb") : NULL;

    if (file == NULL) {
        fprintf(stderr, "list: no file to read\n");
        return 2;
    }
    size_t octets = fread(object, 1, sizeof object, file);
    if (ferror(file)) {
        fprintf(stderr, "list: the file could not be read\n");
        return 2;
    }
    fclose(file);

    uint64_t answer = spi_read(object, octets, lists.tags, SPI_MOST_RECORDS, lists.kinds, SPI_MOST_RECORDS,
                               lists.depths, SPI_MOST_RECORDS, lists.parents, SPI_MOST_RECORDS, lists.starts,
                               SPI_MOST_RECORDS, lists.sizes, SPI_MOST_RECORDS);
    if (spi_refused(answer) != SPI_OK) {
        printf("refused %d at %zu", (int)spi_refused(answer), spi_value(answer));
        if (spi_refused(answer) == SPI_BAD_VALUE)
            printf(" field %d", (int)spi_refused_field(answer));
        printf("\n");
        return 1;
    }
    print_listing(spi_value(answer));
    return 0;
}
