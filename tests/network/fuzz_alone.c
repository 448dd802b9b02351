/* Runs the fuzz target without libFuzzer: the files that are named, and then inputs made of them, the same each time.

   fuzz INPUTS SEED FILE..

   What it makes is a file with bytes changed, cut out, doubled or taken from another file. Where the environment has
   FUZZ_KEEP set, each input is in the file `fuzz-input` while it runs, so that it is there when the target ends the
   program. */
#include <stdint.h>
#include <stdio.h>
#include <stdlib.h>
#include <string.h>

int LLVMFuzzerTestOneInput(const uint8_t *input, size_t size);

enum { FILES_MOST = 4096, SIZE_MOST = 1 << 13 };

struct input { size_t len; uint8_t bytes[SIZE_MOST]; };

static struct input *files[FILES_MOST];
static int count;
static uint64_t state;

static uint32_t draw(uint32_t below)
{
    state = state * 6364136223846793005u + 1442695040888963407u;
    return (uint32_t)(state >> 33) % below;
}

static void read_file(const char *name)
{
    struct input *made = calloc(1, sizeof *made);
    FILE *file = fopen(name, "rb");
    if (file == NULL || made == NULL || count == FILES_MOST) {
        perror(name);
        exit(2);
    }
    made->len = fread(made->bytes, 1, SIZE_MOST, file);
    fclose(file);
    files[count++] = made;
}

static void change(struct input *input)
{
    static const uint8_t edges[] = {0, 1, 2, 3, 4, 15, 16, 17, 127, 128, 254, 255};
    const struct input *other = files[draw((uint32_t)count)];
    uint32_t at = input->len ? draw((uint32_t)input->len) : 0, len = draw(32);
    switch (input->len == 0 ? 4 : draw(5)) {
    case 0: input->bytes[at] ^= (uint8_t)(1u << draw(8)); break;
    case 1: input->bytes[at] = edges[draw(sizeof edges)]; break;
    case 2:
        len = len < input->len - at ? len : (uint32_t)(input->len - at);
        memmove(input->bytes + at, input->bytes + at + len, input->len - at - len);
        input->len -= len;
        break;
    case 3:
        if (input->len + len <= SIZE_MOST) {
            memmove(input->bytes + at + len, input->bytes + at, input->len - at);
            input->len += len;
        }
        break;
    default:
        if (other->len > 0) {
            uint32_t from = draw((uint32_t)other->len), more = (uint32_t)other->len - from;
            more = more < SIZE_MOST - at ? more : SIZE_MOST - at;
            memcpy(input->bytes + at, other->bytes + from, more);
            input->len = input->len > at + more ? input->len : at + more;
        }
    }
}

static void keep(const struct input *input)
{
    FILE *file = fopen("fuzz-input", "wb");
    if (file != NULL) {
        fwrite(input->bytes, 1, input->len, file);
        fclose(file);
    }
}

int main(int argc, char **argv)
{
    if (argc < 4) {
        fputs("usage: fuzz INPUTS SEED FILE..\n", stderr);
        return 2;
    }
    long inputs = atol(argv[1]);
    state = (uint64_t)atol(argv[2]);
    for (int k = 3; k < argc; k++)
        read_file(argv[k]);
    for (int k = 0; k < count; k++)
        LLVMFuzzerTestOneInput(files[k]->bytes, files[k]->len);
    for (long k = 0; k < inputs; k++) {
        static struct input input;
        input = *files[draw((uint32_t)count)];
        for (uint32_t times = 1 + draw(6); times > 0; times--)
            change(&input);
        if (getenv("FUZZ_KEEP") != NULL)
            keep(&input);
        LLVMFuzzerTestOneInput(input.bytes, input.len);
    }
    printf("%ld inputs made of %d files\n", inputs, count);
    return 0;
}
