/* Additive increase and multiplicative decrease over the frames of `ccp drive`: the agent of aimd.py in C.
   The scenario's program 3 has to be round.portus, whose fields are acked, lost, timeout, rtt, inflight.

       cc -O2 -o aimd aimd.c && mkfifo frames
       (cat scenario.json; echo ---; ./aimd) < frames | ./ccp drive > frames

   Numbers are little-endian, as on the machines it is meant for. */
#include <stdint.h>
#include <stdio.h>
#include <stdlib.h>
#include <string.h>

enum { CREATE = 1, MEASURE = 2, UPDATE = 4, CHANGE = 5, FAULT = 6, REFUSED = 8, PROGRAM = 3, HEAD = 16 };
enum { ACKED, LOST, TIMEOUT, RTT };
/* no scenario has this flow, so an update of it is refused at once: the refusal marks the end of what came before it */
static const uint32_t NO_FLOW = 0xffffffff;

static uint32_t u32(const uint8_t *at) { uint32_t v; memcpy(&v, at, 4); return v; }
static uint64_t u64(const uint8_t *at) { uint64_t v; memcpy(&v, at, 8); return v; }

/* Writes an Update, or a Change to PROGRAM, that sets the window; without a window it has no values. */
static void answer(uint8_t kind, uint32_t flow, uint64_t window) {
    uint8_t f[HEAD + 14] = {kind, 1, window != 0};
    uint32_t length = HEAD, program = PROGRAM;
    if (kind == CHANGE) { memcpy(f + length, &program, 4); length += 4; }
    if (window) {
        f[length] = f[length + 1] = 4;
        memcpy(f + length + 2, &window, 8);
        length += 10;
    }
    memcpy(f + 8, &flow, 4);
    memcpy(f + 12, &length, 4);
    fwrite(f, 1, length, stdout);
}

static uint64_t mss, window, calm;

static void on_report(const uint8_t *frame) {
    /* version 1: program, epoch, first, end, and then now, cwnd, rate and the fields */
    const uint8_t *fields = frame + 56;
    uint64_t now = u64(frame + 32), acked = u64(fields + 8 * ACKED), lost = u64(fields + 8 * LOST);
    if (u64(fields + 8 * TIMEOUT)) {
        window = mss;
    } else if (lost && now >= calm) {
        window = window / 2 > 2 * mss ? window / 2 : 2 * mss;
        calm = now + u64(fields + 8 * RTT);
    } else if (!lost) {
        window += mss * acked / window;
    }
}

int main(void) {
    uint8_t frame[8596];
    unsigned marks = 0;
    while (fread(frame, 1, HEAD, stdin) == HEAD) {
        uint32_t flow = u32(frame + 8), length = u32(frame + 12);
        if (length < HEAD || length > sizeof frame || fread(frame + HEAD, 1, length - HEAD, stdin) != length - HEAD)
            break;
        if (frame[0] == REFUSED) {
            if (flow != NO_FLOW) { fprintf(stderr, "aimd: refused, reason %u\n", frame[16]); return 1; }
            if (--marks == 0) return 0;
            continue;
        }
        if (frame[0] == CREATE) {
            window = u64(frame + 16), mss = u32(frame + 24), calm = 0;
        } else if (frame[0] == MEASURE) {
            on_report(frame);
        }
        answer(frame[0] == MEASURE ? UPDATE : CHANGE, flow, window);
        answer(UPDATE, NO_FLOW, 0);
        fflush(stdout);
        marks++;
    }
    fprintf(stderr, "aimd: the datapath ended\n");
    return 1;
}
