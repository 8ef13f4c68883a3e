/* The program gateplay as one would write it in C, for its cost alone: no contract, no proof, no layers.
   It prints the same reports and fault lines. With -DFOUR_VALUED its gate has the four-valued door.
   The doors are written out here once more, and not taken from the tables of tools/simulation.py: what gateplay costs is
   compared with code that goes by no table. */
#include <stdint.h>
#include <stdio.h>
#include <string.h>

enum { ARM_LIMIT = 100, FILE_LIMIT = 60000 };

#ifdef FOUR_VALUED
enum { I, D1, D2, D3, W1, W2, W3, W4, W5, F, X1, X2 };
static const char letters[] = "IDDDWWWWWFXX";
enum { LAST_D = D3, LAST_W = W5, HAS_SIDE = D3 };
#else
enum { I, D1, D2, D3, D4, D5, W1, W2, W3, W4, W5, W6, F, X1, X2 };
static const char letters[] = "IDDDDDWWWWWWFXX";
enum { LAST_D = D5, LAST_W = W6, HAS_SIDE = D3 };
#endif

struct arm {
    uint8_t at, index, side;
    uint32_t visits;
    uint8_t row[ARM_LIMIT];
    uint8_t notes[ARM_LIMIT];
};

static struct arm arms[ARM_LIMIT + 1]; /* arm i at i */
static uint8_t registers[3 * ARM_LIMIT + 1];
static uint8_t file[FILE_LIMIT + 1];
static unsigned n;

static void inside(unsigned i) {
    arms[i].at = F;
    for (unsigned k = 1; k <= n; k++)
        if (arms[k].at >= W1 && arms[k].at <= LAST_W && arms[k].row[i - 1] < 255)
            arms[k].row[i - 1]++;
}

static void onward(unsigned i) {
    if (arms[i].index < n) {
        arms[i].index++;
        arms[i].at = W1;
    } else {
        inside(i);
    }
}

static void start_row(struct arm *arm) {
    arm->at = W1;
    arm->index = 1;
    memset(arm->row, 0, sizeof arm->row);
    for (unsigned k = 1; k <= n; k++)
        arm->notes[k - 1] = arms[k].at == I;
}

static int step(unsigned i) {
    if (i < 1 || i > n)
        return 1;
    struct arm *arm = &arms[i];
    unsigned j = arm->index;
    switch (arm->at) {
    case I: return 3;
    case F: return 4;
#ifdef FOUR_VALUED
    case D1: registers[i] = 2; arm->at = D2; break;
    case D2: arm->side = registers[0]; arm->at = D3; break;
    case D3: registers[i] = arm->side; start_row(arm); break;
    case W1: if (registers[0] != arm->side) inside(i); else arm->at = W2; break;
    case W2: if (registers[j] != 2) arm->at = W3; break;
    case W3: if (registers[j] != 1 - arm->side) onward(i); else arm->at = W4; break;
    case W4: if (registers[j] != 1 - arm->side) onward(i); else arm->at = W5; break;
    case W5: if (registers[0] != arm->side) onward(i); else arm->at = W4; break;
    case X2: registers[i] = 3; arm->at = I; break;
#else
    case D1: registers[3 * i - 2] = 1; arm->at = D2; break;
    case D2: arm->side = registers[0]; arm->at = D3; break;
    case D3: registers[3 * i - 1] = arm->side; arm->at = D4; break;
    case D4: registers[3 * i] = 1; arm->at = D5; break;
    case D5: registers[3 * i - 2] = 0; start_row(arm); break;
    case W1: if (registers[0] != arm->side) inside(i); else arm->at = W2; break;
    case W2: if (!registers[3 * j - 2]) arm->at = W3; break;
    case W3: if (registers[3 * j - 1] == arm->side) onward(i); else arm->at = W4; break;
    case W4: if (!registers[3 * j]) onward(i); else arm->at = W5; break;
    case W5: if (registers[0] != arm->side) onward(i); else arm->at = W6; break;
    case W6: if (registers[3 * j - 1] == arm->side) onward(i); else arm->at = W4; break;
    case X2: registers[3 * i] = 0; arm->at = I; break;
#endif
    case X1: registers[0] = 1 - arm->side; arm->at = X2; break;
    }
    return 0;
}

static int begin(unsigned i) {
    if (i < 1 || i > n)
        return 1;
    if (arms[i].at != I)
        return 2;
    if (arms[i].visits == 1000000000)
        return 5;
    arms[i].at = D1;
    arms[i].visits++;
    return 0;
}

static int leave(unsigned i) {
    if (i < 1 || i > n)
        return 1;
    if (arms[i].at != F)
        return 6;
    arms[i].at = X1;
    return 0;
}

static int fault(int number, size_t at, size_t order, const char *layer) {
    printf("fault %d at %zu order %zu layer %s\n", number, at, order, layer);
    return 1;
}

static int obey(unsigned number) {
    switch (number & 3) {
    case 0: return begin(number >> 2);
    case 1: return step(number >> 2);
    default: return leave(number >> 2);
    }
}

static void report(size_t orders, size_t refused) {
    printf("arms %u orders %zu refused %zu bit %d\n", n, orders, refused, registers[0]);
    for (unsigned i = 1; i <= n; i++) {
        const struct arm *arm = &arms[i];
        int most = 0;
        for (unsigned k = 0; k < n; k++)
            if (arm->row[k] > most)
                most = arm->row[k];
        char side = arm->at >= HAS_SIDE ? '0' + arm->side : '-';
        printf("%u %c %c %u %d\n", i, letters[arm->at], side, arm->visits, most);
    }
}

int main(void) {
    size_t length = fread(file, 1, sizeof file, stdin), orders = 0, refused = 0;
    if (length > FILE_LIMIT)
        return fault(9, 0, 0, "play");
    if (!length)
        return fault(11, 0, 0, "number");
    /* the whole file is gone through first */
    for (int playing = 0; playing < 2; playing++) {
        orders = 0;
        for (size_t p = 0; p < length; orders++) {
            size_t at = p;
            unsigned number = file[p++];
            if (number & 128) {
                if (p == length)
                    return fault(11, at, orders, "number");
                unsigned high = file[p++];
                if (!high)
                    return fault(12, at, orders, "number");
                if (high & 128)
                    return fault(13, at, orders, "number");
                number = (number & 127) | high << 7;
            }
            if (playing) {
                if (orders && obey(number))
                    refused++;
            } else if (!orders) {
                if (!number || number > ARM_LIMIT)
                    return fault(14, 0, 0, "schedule");
                n = number;
#ifdef FOUR_VALUED
                memset(registers + 1, 3, n);
#endif
            } else if ((number & 3) == 3) {
                return fault(15, at, orders, "schedule");
            }
        }
    }
    report(orders - 1, refused);
    return 0;
}
