/* Compares relay_frame_check with the model's answers, which tests/host/frames.py and tests/campaign write: reads the cases on standard input.
   usage: check_frames [LEAST], where LEAST is the number of cases below which the comparison is no use */
#define _DEFAULT_SOURCE
#include <stdio.h>
#include <stdlib.h>
#include <string.h>
#include <sys/mman.h>
#include <unistd.h>

#include "relay.h"

/* Room between two pages that cannot be read. The archive's own code is not watched by a checker of memory, but a read outside a frame that lies against
   such a page ends the program. */
enum { ROOM = 1 << 17 };

static uint8_t *make_room(void)
{
    size_t page = (size_t)sysconf(_SC_PAGESIZE);
    uint8_t *pages = mmap(NULL, ROOM + 2 * page, PROT_NONE, MAP_PRIVATE | MAP_ANONYMOUS, -1, 0);
    if (pages == MAP_FAILED || mprotect(pages + page, ROOM, PROT_READ | PROT_WRITE) != 0) {
        fprintf(stderr, "check_frames: no memory\n");
        exit(2);
    }
    return pages + page;
}

static int read_number(uint32_t *number)
{
    uint8_t b[4];
    if (fread(b, 1, 4, stdin) != 4)
        return 0;
    *number = (uint32_t)b[0] | (uint32_t)b[1] << 8 | (uint32_t)b[2] << 16 | (uint32_t)b[3] << 24;
    return 1;
}

/* Whether the frame, copied to this place and checked with N, own number and edition, gets the right answer and is left as it was. */
static int is_right(uint8_t *place, const uint8_t *frame, uint32_t len, const uint32_t how[3], uint32_t right, uint32_t *answer)
{
    memcpy(place, frame, len);
    *answer = relay_frame_check(place, len, how[0], how[1], how[2]);
    return *answer == right && memcmp(place, frame, len) == 0;
}

int main(int argc, char **argv)
{
    unsigned long least = argc > 1 ? strtoul(argv[1], NULL, 10) : 0;
    uint32_t len, how[3], right, answer;
    unsigned long cases = 0, wrong = 0, answers[18] = {0};
    uint8_t *room = make_room();
    while (read_number(&len)) {
        if (!read_number(&how[0]) || !read_number(&how[1]) || !read_number(&how[2]) || !read_number(&right) || right > 17 || len > ROOM) {
            fprintf(stderr, "check_frames: the input breaks off\n");
            return 2;
        }
        /* just as many bytes as the frame has, for a checker of memory */
        uint8_t *bytes = malloc(len ? len : 1);
        uint8_t *copy = malloc(len ? len : 1);
        if (!bytes || !copy || fread(copy, 1, len, stdin) != len) {
            fprintf(stderr, "check_frames: the input breaks off\n");
            return 2;
        }
        if (!is_right(bytes, copy, len, how, right, &answer) || !is_right(room, copy, len, how, right, &answer)
            || !is_right(room + ROOM - len, copy, len, how, right, &answer)) {
            if (wrong++ < 10)
                fprintf(stderr, "case %lu: %u bytes, n %u, own %u, edition %u: answer %u, the model's is %u\n", cases, len, how[0], how[1], how[2], answer,
                        right);
        }
        answers[right]++;
        cases++;
        free(bytes);
        free(copy);
    }
    printf("frame check: %lu frames, %lu accepted, refused %lu (1) %lu (17) %lu (5) %lu (6) %lu (7), %lu wrong answers\n", cases, answers[0], answers[1],
           answers[17], answers[5], answers[6], answers[7], wrong);
    if (cases < least || (least && answers[0] == 0)) {
        printf("check_frames: too few frames to tell anything\n");
        wrong++;
    }
    printf("%d passed, %d failed\n", wrong == 0, wrong != 0);
    return wrong != 0;
}
