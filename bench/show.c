/* The program show in portable C: the baseline for bench/show.py. */
#include <stdio.h>
#include <string.h>
#include <unistd.h>

#define LONGEST 8192

static const size_t lengths[6] = {0, 32, 5904, 17, 648, 4};
static unsigned char input[LONGEST + 1];
static char text[1 << 17];

int main(void) {
    size_t size = 0, place = 0, records = 0, used = 0;
    while (size < sizeof input) {
        ssize_t got = read(0, input + size, sizeof input - size);
        if (got < 0) {
            perror("show: cannot read standard input");
            return 1;
        }
        if (got == 0)
            break;
        size += (size_t)got;
    }
    if (size > LONGEST) {
        used = (size_t)sprintf(text, "file too long\n");
    } else {
        int refusal = 0;
        used = (size_t)sprintf(text, "place kind length\n");
        while (place < size && refusal == 0) {
            unsigned kind = input[place];
            if (kind < 1 || kind > 5) {
                refusal = 12;
            } else if (size - place - 1 < lengths[kind]) {
                refusal = 13;
            } else {
                used += (size_t)sprintf(text + used, "%zu %u %zu\n", place, kind, lengths[kind]);
                place += 1 + lengths[kind];
                records++;
            }
        }
        if (refusal != 0)
            used += (size_t)sprintf(text + used, "refusal %d layer E place %zu\n", refusal, place);
        else
            used += (size_t)sprintf(text + used, "records %zu\n", records);
    }
    return write(1, text, used) == (ssize_t)used ? 0 : 1;
}
