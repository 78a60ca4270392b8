/* The plain program that `step` is measured against: it writes the stream and the image of a guest of so many
   pages, record by record through buffers of 64 KiB, where a run of zero pages is one record. Each page is painted with one byte (`paint`), or it is zero but for
   its first byte (`store`), or the pages 0, 1, 2 and 14336 begin with the number 1,000 and all else is zero (`count`). */
#include <stdint.h>
#include <stdio.h>
#include <stdlib.h>
#include <string.h>

static enum { COUNT, PAINT, STORE } kind;

static void number(FILE *file, uint32_t value)
{
    unsigned char bytes[4] = { value, value >> 8, value >> 16, value >> 24 };
    if (fwrite(bytes, 1, 4, file) != 4)
        exit(4);
}

static FILE *create(const char *path)
{
    FILE *file = fopen(path, "wb");
    if (!file || setvbuf(file, NULL, _IOFBF, 65536))
        exit(4);
    return file;
}

static int is_zero(uint32_t p)
{
    return kind == COUNT ? p >= 3 && p != 14336 : p % 256 == 0;
}

static void put_page(FILE *file, uint32_t p)
{
    unsigned char page[4096];
    memset(page, kind == PAINT ? (int)(p % 256) : 0, sizeof page);
    if (kind == STORE)
        page[0] = p % 256;
    if (kind == COUNT && (p < 3 || p == 14336))
        page[0] = 0xe8, page[1] = 3;
    if (fwrite(page, 1, sizeof page, file) != sizeof page)
        exit(4);
}

int main(int argc, char **argv)
{
    if (argc != 5)
        return 1;
    kind = strcmp(argv[1], "paint") == 0 ? PAINT : strcmp(argv[1], "store") == 0 ? STORE : COUNT;
    uint32_t pages = (uint32_t)atoi(argv[2]);
    FILE *stream = create(argv[3]);
    FILE *image = create(argv[4]);
    if (fwrite("DRSTREAM", 1, 8, stream) != 8)
        return 4;
    number(stream, 2), number(stream, pages);
    number(stream, 1), number(stream, 1);
    uint32_t records = 0;
    for (uint32_t p = 0; p < pages; records++) {
        uint32_t first = p;
        while (p < pages && is_zero(p))
            p++;
        if (p > first) {
            number(stream, 4), number(stream, first), number(stream, p - first);
        } else {
            number(stream, 2), number(stream, p);
            put_page(stream, p++);
        }
    }
    number(stream, 1), number(stream, 3);
    number(stream, 3), number(stream, records);
    for (uint32_t p = 0; p < pages; p++)
        put_page(image, p);
    return fclose(stream) || fclose(image) ? 4 : 0;
}
