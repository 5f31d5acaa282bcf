/* A model in C of the group's protocol, for bench/group: `group_model THREADS TIMES ROW`, as crates/group_bench.
 *
 * A cell has one atomic word, 0 where it is empty, 1 where it is busy and 2 + turn * 16384 + number where it is full,
 * and one slot. A seat scans on from the cell that it claimed last, claims a cell by an exchange from the word that it
 * loaded there, moves the packet by plain memory, and stores the cell's next word. All is sequentially consistent. */
#include <pthread.h>
#include <stdatomic.h>
#include <stdint.h>
#include <stdlib.h>

#define POOL 4096
#define BYTES 10240

struct packet { uint32_t number; uint64_t turn; uint8_t *bytes; uint64_t length; };
struct slot { struct packet packet; int full; };
struct seat { uint64_t take, give; struct packet *held; uint64_t count; };

static _Atomic uint64_t words[POOL];
static struct slot slots[POOL];
static uint64_t times, row;

static uint64_t full_word(const struct packet *packet) { return 2 + packet->turn * 16384 + packet->number; }

static int take(struct seat *seat, struct packet *packet) {
    uint64_t cell = seat->take;
    for (uint64_t k = 0; k < POOL; k++) {
        uint64_t word = atomic_load(&words[cell]);
        if (word >= 2 && atomic_compare_exchange_strong(&words[cell], &word, 1)) {
            *packet = slots[cell].packet;
            slots[cell].full = 0;
            seat->take = cell;
            atomic_store(&words[cell], 0);
            return 1;
        }
        cell = cell + 1 < POOL ? cell + 1 : 0;
    }
    return 0;
}

static int give(struct seat *seat, struct packet *packet) {
    uint64_t cell = seat->give;
    for (uint64_t k = 0; k < POOL; k++) {
        uint64_t word = atomic_load(&words[cell]);
        if (word == 0 && atomic_compare_exchange_strong(&words[cell], &word, 1)) {
            packet->turn++;
            slots[cell].packet = *packet;
            slots[cell].full = 1;
            seat->give = cell;
            atomic_store(&words[cell], full_word(packet));
            return 1;
        }
        cell = cell + 1 < POOL ? cell + 1 : 0;
    }
    return 0;
}

static void give_row(struct seat *seat) {
    while (seat->count > 0 && give(seat, &seat->held[seat->count - 1])) seat->count--;
}

static void *hold(void *arg) {
    struct seat *seat = arg;
    for (uint64_t i = 0; i < times; i++) {
        for (uint64_t k = 0; k < row && take(seat, &seat->held[seat->count]); k++) seat->count++;
        give_row(seat);
    }
    return NULL;
}

int main(int argc, char **argv) {
    if (argc != 4) return 1;
    int threads = atoi(argv[1]) > 1 ? 4 : 1;
    times = strtoull(argv[2], NULL, 10);
    row = strtoull(argv[3], NULL, 10);
    for (uint64_t i = 0; i < POOL; i++) {
        slots[i].packet = (struct packet){ .number = i, .turn = 0, .bytes = malloc(BYTES), .length = 0 };
        slots[i].full = 1;
        words[i] = full_word(&slots[i].packet);
    }
    struct seat seats[4];
    pthread_t ids[4];
    for (int i = 0; i < 4; i++) {
        struct packet *held = malloc((row + POOL + 1) * sizeof(struct packet));
        seats[i] = (struct seat){ .take = 0, .give = 0, .held = held, .count = 0 };
    }
    if (threads == 1) {
        hold(&seats[0]);
    } else {
        for (int i = 0; i < 4; i++) if (pthread_create(&ids[i], NULL, hold, &seats[i])) return 1;
        for (int i = 0; i < 4; i++) pthread_join(ids[i], NULL);
    }
    for (int i = 0; i < 4; i++) give_row(&seats[i]);
    uint64_t there = 0;
    for (uint64_t i = 0; i < POOL; i++) there += words[i] >= 2;
    return there == POOL ? 0 : 1;
}
