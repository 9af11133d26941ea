// The least that an installation does whose map names each sector of a kernel on a Minix volume of version 2: it looks at
// each zone of one inode (its number, its bit, whether it was met before), writes five bytes for each sector, 32 KiB a
// call, near the end of the image, and syncs it. Arguments: the image, the volume's first byte, the inode.
#include <fcntl.h>
#include <stdint.h>
#include <stdlib.h>
#include <string.h>
#include <unistd.h>

enum { BLOCK = 1024, PER = BLOCK / 4 };

static int file;
static off_t base;
static uint8_t *bits, *met;
static uint16_t first;
static uint32_t zones, count, *found;

static void get(void *into, size_t length, off_t place)
{
    if (pread(file, into, length, base + place) != (ssize_t)length)
        _exit(2);
}

static void meet(uint32_t zone)
{
    uint32_t bit = zone - first + 1;

    if (zone < first || zone >= zones || !(bits[bit / 8] >> bit % 8 & 1) || met[zone / 8] >> zone % 8 & 1)
        _exit(3);
    met[zone / 8] |= 1 << zone % 8;
}

static void follow(uint32_t zone, int levels)
{
    uint32_t numbers[PER];

    if (!zone)
        return;
    meet(zone);
    if (!levels) {
        found[count++] = zone;
        return;
    }
    get(numbers, BLOCK, (off_t)zone * BLOCK);
    for (int index = 0; index < PER; index++)
        follow(numbers[index], levels - 1);
}

int main(int words, char **word)
{
    static uint8_t text[32768];
    uint8_t super[BLOCK], node[64];
    uint16_t inode_bits, zone_bits;
    uint32_t pointers[10];
    size_t length = 0;

    if (words != 4 || (file = open(word[1], O_RDWR)) < 0)
        return 1;
    base = atoll(word[2]);
    get(super, BLOCK, BLOCK);
    memcpy(&inode_bits, super + 4, 2);
    memcpy(&zone_bits, super + 6, 2);
    memcpy(&first, super + 8, 2);
    memcpy(&zones, super + 20, 4);
    bits = malloc(zone_bits * BLOCK);
    met = calloc(zones / 8 + 1, 1);
    found = malloc(4 * (size_t)zones);
    if (!bits || !met || !found)
        return 1;
    get(bits, zone_bits * BLOCK, (2 + inode_bits) * BLOCK);
    get(node, sizeof node, (off_t)(2 + inode_bits + zone_bits) * BLOCK + (atol(word[3]) - 1) * (off_t)sizeof node);
    memcpy(pointers, node + 24, sizeof pointers);
    for (int index = 0; index < 10; index++)
        follow(pointers[index], index < 7 ? 0 : index - 6);
    off_t place = lseek(file, 0, SEEK_END) - (2 << 20);
    for (uint32_t sector = 0; sector < 2 * count; sector++) {
        uint32_t number = base / 512 + 2 * found[sector / 2] + sector % 2;

        text[length] = 0x80;
        memcpy(text + length + 1, &number, 4);
        length += 5;
        if (length + 5 > sizeof text || sector + 1 == 2 * count) {
            if (pwrite(file, text, length, place) != (ssize_t)length)
                return 1;
            place += length;
            length = 0;
        }
    }
    return fsync(file) != 0;
}
