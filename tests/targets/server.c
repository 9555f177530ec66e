/* Makes each call that it is sent, with the library of its own processor, and sends back every buffer. rust/compare/src/message.rs
 * says what is sent. Both ends are little-endian.
 *
 * At the end of its input it says how deep a call's stack went. Exit status 1: a buffer is cut, or a call wrote beside one. */
#include "clew.h"
#include "platform.h"

enum { LOAD, CHANGE_ROWS, REPLACE_LAYER, UPDATE, READ, SIZES };
enum { NET, SUMS, AREA, STATE, OWN, TOLD, BUFFERS };

struct head {
    uint64_t call, first, second;
    uint64_t bytes[BUFFERS];
};

/* The buffers stand between fences. Those of bytes alone begin at an odd place, and an empty one is lent as NULL. */
enum { ROOM = 1 << 20, FENCE = 24, MARK = 0xA5 };
static _Alignas(8) uint8_t room[ROOM];
static uint32_t places[BUFFERS + 1];
static uint8_t *lent[BUFFERS];

/* Where the stack stood when the library was called. */
static uintptr_t top;

__attribute__((noinline)) static uint64_t call(const struct head *h)
{
    const uint64_t net = h->bytes[NET], sums = h->bytes[SUMS] / 4, area = h->bytes[AREA], own = h->bytes[OWN];
    uint32_t *const numbers = (void *)lent[SUMS], *const told = (void *)lent[TOLD];
    uint16_t *const state = (void *)lent[STATE];
    top = (uintptr_t)__builtin_frame_address(0);
    switch (h->call) {
    case LOAD:
        return clew_load(lent[NET], net, numbers, sums, lent[AREA], area, state);
    case CHANGE_ROWS:
        return clew_change_rows(lent[NET], net, numbers, sums, lent[AREA], area, state, h->first, h->second, lent[OWN], own);
    case REPLACE_LAYER:
        return clew_replace_layer(lent[NET], net, numbers, sums, lent[AREA], area, state, h->first, lent[OWN], own);
    case UPDATE:
        return clew_update(lent[NET], net, numbers, sums, lent[AREA], area, state, told);
    case READ:
        return clew_read(lent[NET], net, numbers, sums, lent[AREA], area, state, lent[OWN], own);
    case SIZES:
        return clew_sizes(lent[NET], net, told);
    default:
        stop("server: no such call\n");
    }
}

/* Places the buffers into the room; the last place is its end. */
static void place(const struct head *h)
{
    uint32_t at = FENCE;
    for (int i = 0; i < BUFFERS; i++) {
        places[i] = at + (i == NET || i == AREA || i == OWN);
        if (h->bytes[i] > ROOM || places[i] + h->bytes[i] > ROOM - 2 * FENCE)
            stop("server: no room\n");
        lent[i] = h->bytes[i] == 0 ? NULL : room + places[i];
        at = (places[i] + (uint32_t)h->bytes[i] + FENCE + 7) / 8 * 8;
    }
    places[BUFFERS] = at;
}

/* Marks what stands between the buffers, or looks whether a mark is gone. */
static void fences(const struct head *h, int look)
{
    uint32_t at = 0;
    for (int i = 0; i <= BUFFERS; i++) {
        for (; at < places[i]; at++) {
            if (look && room[at] != MARK)
                stop("server: a call wrote beside its buffers\n");
            room[at] = MARK;
        }
        at += i < BUFFERS ? (uint32_t)h->bytes[i] : 0;
    }
}

void serve(void)
{
    struct head h;
    while (get(&h, sizeof h)) {
        place(&h);
        fences(&h, 0);
        for (int i = 0; i < BUFFERS; i++)
            if (!get(lent[i], (uint32_t)h.bytes[i]))
                stop("server: the input is cut\n");
        const uint64_t number = call(&h);
        fences(&h, 1);
        put(&number, sizeof number);
        for (int i = 0; i < BUFFERS; i++)
            put(lent[i], (uint32_t)h.bytes[i]);
    }
    say_stack(top);
}
