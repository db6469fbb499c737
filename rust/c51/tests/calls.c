/* Every call of the library once from C, with an answer that the bench cards and the table of refusals give; when flags last rose;
 * how often timers overflowed; how many rounds a jump takes; checkpoints; and lists of calls. */
#include <c51.h>
#include <stdio.h>
#include <string.h>

static int failures = 0;

static void check(int holds, const char *what) {
    if (!holds) {
        failures++;
        printf("%s\n", what);
    }
}

/* Whether two records are the same in every field; the padding of a struct may hold anything. */
static int same(const c51_device *a, const c51_device *b) {
    const c51_sender *as = &a->serial.send, *bs = &b->serial.send;
    const c51_receiver *ar = &a->serial.receive, *br = &b->serial.receive;
    return a->kind == b->kind && a->pcon == b->pcon && a->cycle == b->cycle && memcmp(a->levels, b->levels, sizeof a->levels) == 0 &&
           memcmp(&a->timers, &b->timers, sizeof a->timers) == 0 && memcmp(&a->timer2, &b->timer2, sizeof a->timer2) == 0 &&
           memcmp(&a->interrupts, &b->interrupts, sizeof a->interrupts) == 0 && a->serial.scon == b->serial.scon &&
           a->serial.half == b->serial.half && a->serial.received == b->serial.received && as->position == bs->position &&
           as->value == bs->value && as->counter == bs->counter && ar->position == br->position && ar->value == br->value &&
           ar->counter == br->counter && ar->votes == br->votes && ar->sample == br->sample &&
           memcmp(&a->times, &b->times, sizeof a->times) == 0;
}

static void calls(void) {
    c51_answer reset = c51_reset(52);
    check(reset.code == C51_PASSED && reset.device.kind == 52 && reset.device.levels[6] == 1, "reset");
    check(c51_reset(53).code == C51_BAD_KIND && c51_reset(53).device.kind == 0, "reset refused");
    check(c51_accepts(reset.device) == 1 && c51_accepts(c51_reset(53).device) == 0, "accepts");

    /* Timer 0 in mode 1 at FFFE: TF0 rises in cycle 2, and 000B is offered after 3. */
    c51_device device = reset.device;
    check(c51_write(&device, C51_TMOD, 0x01) == C51_PASSED, "write TMOD");
    check(c51_write(&device, C51_TH0, 0xFF) == C51_PASSED, "write TH0");
    check(c51_write(&device, C51_TL0, 0xFE) == C51_PASSED, "write TL0");
    check(c51_write(&device, C51_IE, 0x82) == C51_PASSED, "write IE");
    check(c51_write(&device, C51_TCON, 0x10) == C51_PASSED, "write TCON");
    check(c51_write(&device, 0x00, 0xFF) == C51_BAD_ADDRESS, "write refused");
    c51_value_answer read = c51_read(device, C51_TH0);
    check(read.code == C51_PASSED && read.value == 0xFF, "read");
    c51_look_answer look = c51_look(device, C51_PINS_HIGH, C51_MAX_CYCLES);
    check(look.code == C51_PASSED && look.found == 1 && look.at == 2, "look ahead");
    check(c51_look(device, C51_PINS_HIGH, C51_MAX_CYCLES + 1).code == C51_TOO_LONG, "look ahead refused");
    c51_look_answer wake = c51_wake(device, C51_PINS_HIGH, C51_MAX_CYCLES);
    check(wake.code == C51_PASSED && wake.found == 1 && wake.at == 3, "wake look");
    wake = c51_wake(device, C51_PINS_HIGH, 2);
    check(wake.code == C51_PASSED && wake.found == 0 && wake.at == 0, "wake look that finds none");
    check(c51_wake(device, 0x80, 0).code == C51_BAD_PINS, "wake look refused");

    c51_line_answer line = c51_cycle(&device, C51_PINS_HIGH);
    check(line.code == C51_PASSED && line.line == 1 && device.cycle == 1, "cycle");
    check(c51_cycle(&device, 0x80).code == C51_BAD_PINS && device.cycle == 1, "cycle refused");
    check(c51_offer(device).offered == 0, "nothing offered");
    check(c51_take(&device).code == C51_NOTHING_OFFERED, "take refused");
    check(c51_jump(&device, C51_PINS_HIGH, 2).code == C51_PASSED && device.cycle == 3, "jump");

    c51_offer_answer offer = c51_offer(device);
    check(offer.code == C51_PASSED && offer.offered == 1 && offer.vector == 0x0B, "offer");
    wake = c51_wake(device, C51_PINS_HIGH, 0);
    check(wake.code == C51_PASSED && wake.found == 1 && wake.at == 0, "wake look at 0");
    check(c51_write(&device, C51_PCON, C51_PCON_SMOD | C51_PCON_IDL) == C51_PASSED, "idle");
    c51_vector_answer take = c51_take(&device);
    check(take.code == C51_PASSED && take.vector == 0x0B && device.interrupts.low == 1, "take");
    check(device.pcon == C51_PCON_SMOD, "a take clears IDL");
    check(c51_return(&device) == C51_PASSED && device.interrupts.low == 0, "return");
    c51_device before = device;
    check(c51_return(&device) == C51_NOTHING_IN_SERVICE && same(&device, &before), "return refused");

    const uint32_t trace[3] = {0x7F000064u, 0x7E000001u, 0x7F000000u};
    check(c51_trace(&device, trace, 0).code == C51_PASSED && same(&device, &before), "trace of no entries");
    check(c51_trace(&device, trace, 3).code == C51_EMPTY_ENTRY && same(&device, &before), "trace refused");
    check(c51_trace(&device, trace, 2).code == C51_PASSED && device.cycle == 104 && device.levels[0] == 0, "trace");

    check(c51_write(&device, C51_PCON, C51_PCON_PD | C51_PCON_IDL) == C51_PASSED, "the write that sets PD");
    before = device;
    check(c51_cycle(&device, 0).code == C51_PASSED && c51_cycle(&device, 0).line == 1, "cycle in power-down");
    check(c51_jump(&device, 0, C51_MAX_CYCLES).code == C51_PASSED, "jump in power-down");
    check(c51_trace(&device, trace, 2).code == C51_PASSED, "trace in power-down");
    check(c51_trace(&device, trace, 3).code == C51_EMPTY_ENTRY, "trace refused in power-down");
    check(c51_offer(device).code == C51_PASSED && c51_offer(device).offered == 0, "offer in power-down");
    wake = c51_wake(device, 0, C51_MAX_CYCLES);
    check(wake.code == C51_PASSED && wake.found == 0, "wake look in power-down");
    check(c51_write(&device, C51_PCON, 0) == C51_POWERED_DOWN, "write in power-down");
    check(c51_write(&device, 0, 0) == C51_POWERED_DOWN, "write in power-down, before the address");
    check(c51_take(&device).code == C51_POWERED_DOWN, "take in power-down");
    check(c51_return(&device) == C51_POWERED_DOWN, "return in power-down");
    check(same(&device, &before), "power-down alters nothing");
}

/* Whether the flag, and no other, rose since reset, and has this number. */
static int alone(const c51_device *device, int flag, uint64_t number) {
    int i;
    for (i = C51_FLAG_TF0; i <= C51_FLAG_EXF2; i++) {
        if (i != flag && (C51_EVER_ROSE(*device, i) != 0 || C51_LAST_RISE(*device, i) != 0)) return 0;
    }
    return C51_EVER_ROSE(*device, flag) == 1 && C51_LAST_RISE(*device, flag) == number;
}

/* When flags last rose: Timer 0 in mode 1, which overflows in the second cycle from FFFE. */
static void rises(void) {
    c51_device reset = c51_reset(52).device, device = reset, jumped, before;
    int i;
    for (i = C51_FLAG_TF0; i <= C51_FLAG_EXF2; i++) {
        check(C51_EVER_ROSE(reset, i) == 0 && C51_LAST_RISE(reset, i) == 0, "never after reset");
    }
    check(c51_write(&device, C51_TMOD, 0x01) == C51_PASSED && c51_write(&device, C51_TCON, 0x10) == C51_PASSED, "Timer 0 runs");
    check(c51_write(&device, C51_TH0, 0xFF) == C51_PASSED && c51_write(&device, C51_TL0, 0xFE) == C51_PASSED, "from FFFE");
    before = jumped = device;
    check(c51_cycle(&device, C51_PINS_HIGH).code == C51_PASSED && C51_EVER_ROSE(device, C51_FLAG_TF0) == 0, "not in cycle 1");
    check(c51_cycle(&device, C51_PINS_HIGH).code == C51_PASSED && alone(&device, C51_FLAG_TF0, 2), "TF0 rises in cycle 2");
    check(c51_jump(&jumped, C51_PINS_HIGH, 2).code == C51_PASSED && same(&jumped, &device), "a jump leaves what single cycles leave");

    check(c51_cycle(&device, 0x80).code == C51_BAD_PINS, "cycle refused");
    check(c51_jump(&device, C51_PINS_HIGH, C51_MAX_CYCLES + 1).code == C51_TOO_LONG, "jump refused");
    check(c51_write(&device, 0, 0) == C51_BAD_ADDRESS && c51_take(&device).code == C51_NOTHING_OFFERED, "write and take refused");
    check(same(&device, &jumped), "refused calls keep the numbers");
    check(c51_jump(&device, C51_PINS_HIGH, 65536).code == C51_PASSED && alone(&device, C51_FLAG_TF0, 2), "TF0 is set again: no rise");
    check(c51_write(&device, C51_TCON, 0x10) == C51_PASSED && alone(&device, C51_FLAG_TF0, 2), "a write clears it");
    check(c51_jump(&device, C51_PINS_HIGH, 65536).code == C51_PASSED && alone(&device, C51_FLAG_TF0, 131074), "the later of two rises");
    check(c51_write(&device, C51_PCON, C51_PCON_PD) == C51_PASSED, "power-down");
    check(c51_jump(&device, 0, C51_MAX_CYCLES).code == C51_PASSED && alone(&device, C51_FLAG_TF0, 131074), "power-down keeps it");

    device = before;
    check(c51_write(&device, C51_TCON, 0x30) == C51_PASSED, "TF0 by software");
    check(c51_jump(&device, C51_PINS_HIGH, 9).code == C51_PASSED, "and set again by the overflow");
    check(memcmp(&device.times, &reset.times, sizeof device.times) == 0, "a write never counts");

    device = before;
    device.cycle = UINT64_MAX - 1;
    check(c51_jump(&device, C51_PINS_HIGH, 2).code == C51_PASSED && device.cycle == 0, "the cycle number wraps");
    check(alone(&device, C51_FLAG_TF0, 0), "and the number with it");

    for (i = C51_FLAG_TF0; i <= C51_FLAG_EXF2; i++) {
        device = c51_reset(51).device;
        device.times.ever[i] = 1;
        check(c51_accepts(device) == 1 && alone(&device, i, 0), "a flag that rose at 0");
        device.times.number[i] = UINT64_MAX;
        check(c51_accepts(device) == 1 && alone(&device, i, UINT64_MAX), "a flag that rose at any number");
        device.times.ever[i] = 2;
        check(c51_accepts(device) == 0 && c51_offer(device).code == C51_BAD_RECORD, "neither ever nor never");
        device.times.ever[i] = 0;
        before = device;
        check(c51_accepts(device) == 0 && c51_cycle(&device, C51_PINS_HIGH).code == C51_BAD_RECORD && same(&device, &before),
              "never, with a number");
    }
}

static int are(c51_totals totals, uint64_t timer0, uint64_t timer1, uint64_t timer2) {
    return totals.timer0 == timer0 && totals.timer1 == timer1 && totals.timer2 == timer2;
}

/* A device of kind 52 after these writes, each an address and a value, up to one at 0. */
static c51_device written(const uint8_t (*writes)[2]) {
    c51_device device = c51_reset(52).device;
    for (; (*writes)[0] != 0; writes++) check(c51_write(&device, (*writes)[0], (*writes)[1]) == C51_PASSED, "write");
    return device;
}

static void totals(void) {
    /* Timer 1 in mode 2: the third card of document 01, in one jump and in two. */
    static const uint8_t third_card[][2] = {{C51_TMOD, 0x20}, {C51_TH1, 0xFD}, {C51_TL1, 0xFE}, {C51_TCON, 0x40}, {0, 0}};
    /* Timer 0 in mode 3, TL0 and TH0 at FF. */
    static const uint8_t mode_3[][2] = {{C51_TMOD, 0x03}, {C51_TL0, 0xFF}, {C51_TH0, 0xFF}, {C51_TCON, 0x50}, {0, 0}};
    /* Timer 2 as a baud rate generator, its count and RCAP2 at FFFD. */
    static const uint8_t baud[][2] = {{C51_RCAP2H, 0xFF}, {C51_RCAP2L, 0xFD}, {C51_TH2, 0xFF},
                                      {C51_TL2, 0xFD},    {C51_T2CON, 0x24},  {0, 0}};
    const uint32_t trace[2] = {0x7F000063u, 0x7F000002u}, bad[2] = {0x7F000063u, 0x7F000000u};
    c51_device given = written(third_card), device = given, jumped = given;
    c51_jump_answer jump = c51_jump(&device, C51_PINS_HIGH, 101), rest;
    c51_run_answer run;
    check(jump.code == C51_PASSED && are(jump.totals, 0, 34, 0) && device.timers.tl1 == 0xFD, "34 overflows in 101 cycles");
    jump = c51_jump(&jumped, C51_PINS_HIGH, 1);
    rest = c51_jump(&jumped, C51_PINS_HIGH, 100);
    check(are(jump.totals, 0, 0, 0) && are(rest.totals, 0, 34, 0) && same(&jumped, &device), "a jump of 1 and one of 100");
    jumped = given;
    jump = c51_jump(&jumped, C51_PINS_HIGH, 50);
    rest = c51_jump(&jumped, C51_PINS_HIGH, 51);
    check(are(jump.totals, 0, 17, 0) && are(rest.totals, 0, 17, 0) && same(&jumped, &device), "jumps of 50 and 51");
    jumped = given;
    run = c51_trace(&jumped, trace, 2);
    check(run.code == C51_PASSED && are(run.totals, 0, 34, 0) && same(&jumped, &device), "entries of 99 and 2 cycles");

    jumped = given;
    check(are(c51_jump(&jumped, C51_PINS_HIGH, 0).totals, 0, 0, 0) && same(&jumped, &given), "an empty jump");
    check(are(c51_trace(&jumped, trace, 0).totals, 0, 0, 0) && same(&jumped, &given), "an empty trace");
    jump = c51_jump(&jumped, 0x80, 101);
    check(jump.code == C51_BAD_PINS && are(jump.totals, 0, 0, 0), "totals of a jump refused by 4");
    jump = c51_jump(&jumped, C51_PINS_HIGH, C51_MAX_CYCLES + 1);
    check(jump.code == C51_TOO_LONG && are(jump.totals, 0, 0, 0), "totals of a jump refused by 5");
    run = c51_trace(&jumped, bad, 2);
    check(run.code == C51_EMPTY_ENTRY && are(run.totals, 0, 0, 0) && same(&jumped, &given), "totals of a trace refused by 8");
    jumped.kind = 0;
    jump = c51_jump(&jumped, C51_PINS_HIGH, 101);
    check(jump.code == C51_BAD_RECORD && are(jump.totals, 0, 0, 0), "totals of a jump refused by 1");
    jumped = given;
    check(c51_write(&jumped, C51_PCON, C51_PCON_PD) == C51_PASSED, "power-down");
    jump = c51_jump(&jumped, C51_PINS_HIGH, 101);
    run = c51_trace(&jumped, trace, 2);
    check(jump.code == C51_PASSED && are(jump.totals, 0, 0, 0) && are(run.totals, 0, 0, 0), "totals in power-down");

    device = written(mode_3);
    check(are(c51_jump(&device, C51_PINS_HIGH, 1).totals, 2, 0, 0), "TL0 and TH0 overflow in one cycle");
    check(are(c51_jump(&device, C51_PINS_HIGH, 256).totals, 2, 0, 0), "and in one of the next 256");
    device = written(baud);
    check(are(c51_jump(&device, C51_PINS_HIGH, 1).totals, 0, 0, 2), "two overflows of Timer 2 in a cycle");
    check(are(c51_jump(&device, C51_PINS_HIGH, 1000).totals, 0, 0, 2000), "and in each of 1,000");
}

/* Whether a jump of n cycles with all pins high passes in so many rounds. */
static int takes(c51_device *device, uint64_t n, uint64_t rounds) {
    c51_jump_answer jump = c51_jump(device, C51_PINS_HIGH, n);
    return jump.code == C51_PASSED && jump.rounds == rounds;
}

static void rounds(void) {
    /* The idle station: Timer 1 laps every third cycle, TF1 being up. */
    static const uint8_t station[][2] = {{C51_TMOD, 0x20}, {C51_TH1, 0xFD},  {C51_TL1, 0xFD},
                                         {C51_SCON, 0x50}, {C51_TCON, 0xC0}, {0, 0}};
    /* A byte to send in serial mode 1, Timer 1 standing. */
    static const uint8_t waiting[][2] = {{C51_SCON, 0x40}, {C51_SBUF, 0x35}, {0, 0}};
    c51_device reset = c51_reset(52).device, device = reset, settled;
    c51_jump_answer jump;
    uint64_t n;
    check(takes(&device, 0, 0) && takes(&device, 1000, 1) && takes(&device, 1, 1), "a device at rest");
    check(takes(&device, C51_MAX_CYCLES, 1) && device.cycle == C51_MAX_CYCLES + 1001, "the longest jump");
    jump = c51_jump(&device, C51_PINS_HIGH & ~C51_PIN_RXD, 1000);
    check(jump.code == C51_PASSED && jump.rounds == 2, "the cycle in which RXD falls, and the run after it");

    device = written(station);
    check(takes(&device, 3, 3), "TF1 is seen, TF1 is polled, Timer 1 overflows");
    settled = device;
    jump = c51_jump(&device, C51_PINS_HIGH, 99);
    check(jump.code == C51_PASSED && are(jump.totals, 0, 33, 0) && jump.rounds == 66, "two rounds a lap");
    for (n = 0; n < 30; n++) {
        device = settled;
        check(takes(&device, n, n / 3 * 2 + (n % 3 > 0)), "so many cycles of the idle station");
    }
    device = settled;
    check(takes(&device, 1, 1) && takes(&device, 2, 2), "a run that two jumps cut is a round in each");

    device = written(waiting);
    check(takes(&device, 1, 1) && takes(&device, 1000, 1000) && device.serial.send.position == 1, "each cycle of a frame that waits");

    check(c51_write(&device, C51_PCON, C51_PCON_PD) == C51_PASSED, "power-down");
    check(takes(&device, 1, 1) && takes(&device, C51_MAX_CYCLES, 1) && takes(&device, 0, 0), "power-down is one run");

    device = settled;
    jump = c51_jump(&device, 0x80, 99);
    check(jump.code == C51_BAD_PINS && jump.rounds == 0, "rounds of a jump refused by 4");
    jump = c51_jump(&device, C51_PINS_HIGH, C51_MAX_CYCLES + 1);
    check(jump.code == C51_TOO_LONG && jump.rounds == 0 && same(&device, &settled), "rounds of a jump refused by 5");
    device.kind = 0;
    jump = c51_jump(&device, C51_PINS_HIGH, 99);
    check(jump.code == C51_BAD_RECORD && jump.rounds == 0, "rounds of a jump refused by 1");
}

/* Whether a file is refused by this code, and gives a record all zero. */
static int refused(const uint8_t *file, size_t length, uint8_t code) {
    c51_device zeros = c51_reset(0).device;
    c51_answer load = c51_load(file, length);
    return load.code == code && same(&load.device, &zeros);
}

/* Whether every byte of a buffer is this one. */
static int all(const uint8_t *buffer, size_t length, uint8_t byte) {
    size_t i;
    for (i = 0; i < length; i++) {
        if (buffer[i] != byte) return 0;
    }
    return 1;
}

/* A device in the middle of a byte that it sends, in serial mode 0, TF0 having risen in cycle 2; and one of kind 51 at rest. */
static void checkpoints(void) {
    static const uint8_t sending[][2] = {{C51_TMOD, 0x01}, {C51_TH0, 0xFF},  {C51_TL0, 0xFE}, {C51_IE, 0x82},
                                         {C51_TCON, 0x10}, {C51_SBUF, 0x35}, {0, 0}};
    /* the places of PCON's value, of the count of hidden fields, of the received byte, of the cycle number, of the level of RXD, of the
     * count of flag times, and of TF0's ever byte with its number behind it */
    enum { PCON = 2, HIDDEN = 33, RECEIVED = 106, CYCLE = 170, RXD = 178, TIMES = 234, TF0 = 235 };
    c51_device device = written(sending), moved, bad, zeros = c51_reset(0).device, reset = c51_reset(51).device;
    uint8_t file[C51_CHECKPOINT_52], other[C51_CHECKPOINT_52 + 1];
    size_t length;
    c51_answer load;
    check(c51_jump(&device, C51_PINS_HIGH, 5).code == C51_PASSED && device.serial.send.position != 0, "in the middle of a byte");
    check(c51_save(device, file, C51_CHECKPOINT_52) == C51_PASSED, "save");
    check(file[0] == 16 && file[1] == C51_PCON && file[3] == C51_TCON && file[4] == 0x30, "the first registers");
    check(file[HIDDEN] == 25 && file[CYCLE] == 5 && all(file + CYCLE + 1, 7, 0), "the cycle number, low byte first");
    check(file[TIMES] == 8 && file[TF0] == 1 && file[TF0 + 1] == 2, "the flag times");
    check(all(file + TF0 + 2, sizeof file - TF0 - 2, 0), "no other flag rose");
    load = c51_load(file, C51_CHECKPOINT_52);
    check(load.code == C51_PASSED && same(&load.device, &device) && c51_accepts(load.device) == 1, "load");
    moved = load.device;
    check(c51_look(moved, C51_PINS_HIGH, 100).at == 5, "the moved device sends the rest of the byte");
    check(c51_jump(&moved, C51_PINS_HIGH, 5).code == C51_PASSED, "the moved device goes on");
    check(c51_jump(&device, C51_PINS_HIGH, 5).code == C51_PASSED, "and so does the other");
    check(same(&moved, &device) && C51_LAST_RISE(moved, C51_FLAG_TI) == 10, "and end alike");

    memset(other, 0xAA, sizeof other);
    check(c51_save(reset, other, C51_CHECKPOINT_51) == C51_PASSED && other[0] == 11 && other[23] == 25 && other[224] == 8, "kind 51");
    check(all(other + C51_CHECKPOINT_51, sizeof other - C51_CHECKPOINT_51, 0xAA), "no byte past the buffer");
    load = c51_load(other, C51_CHECKPOINT_51);
    check(load.code == C51_PASSED && same(&load.device, &reset), "a load of kind 51");

    memset(other, 0xAA, sizeof other);
    bad = device;
    bad.levels[0] = 2;
    for (length = 0; length <= sizeof other; length++) {
        check(c51_save(bad, other, length) == C51_BAD_RECORD && c51_save(zeros, other, length) == C51_BAD_RECORD, "1 before 15");
        check(length == C51_CHECKPOINT_51 || c51_save(reset, other, length) == C51_BAD_LENGTH, "a buffer of another length, kind 51");
        check(length == C51_CHECKPOINT_52 || c51_save(device, other, length) == C51_BAD_LENGTH, "a buffer of another length, kind 52");
    }
    check(all(other, sizeof other, 0xAA), "a refused save leaves the buffer");

    memcpy(other, file, sizeof file);
    other[C51_CHECKPOINT_52] = 0;
    for (length = 0; length < C51_CHECKPOINT_52; length++) check(refused(other, length, C51_BAD_LENGTH), "cut short");
    check(refused(other, sizeof other, C51_BAD_LENGTH), "a byte left over");
    other[0] = 11;
    check(refused(other, C51_CHECKPOINT_52, C51_BAD_LAYOUT), "the count of the other kind");
    other[0] = 16;
    other[1] = C51_TCON;
    check(refused(other, C51_CHECKPOINT_52, C51_BAD_LAYOUT), "another address");
    other[1] = C51_PCON;
    other[HIDDEN] = 24;
    check(refused(other, C51_CHECKPOINT_52, C51_BAD_LAYOUT), "another count of hidden fields");
    other[HIDDEN] = 25;
    other[TIMES] = 9;
    check(refused(other, C51_CHECKPOINT_52, C51_BAD_LAYOUT), "another count of flag times");
    other[TIMES] = 8;
    other[PCON] = 0x10;
    check(refused(other, C51_CHECKPOINT_52, C51_BAD_VALUE), "a bit that PCON lacks");
    other[PCON] = 0;
    other[RECEIVED] ^= 1;
    check(refused(other, C51_CHECKPOINT_52, C51_BAD_VALUE), "a received byte that disagrees");
    other[RECEIVED] ^= 1;
    other[RXD] = 2;
    check(refused(other, RXD + 7, C51_BAD_LENGTH) && refused(other, RXD + 8, C51_BAD_VALUE), "a level of 2, cut inside and after it");
    other[RXD] = 1;
    other[TF0] = 2;
    check(refused(other, TF0 + 1, C51_BAD_VALUE) && refused(other, sizeof other, C51_BAD_VALUE), "an ever byte of 2, also cut off");
    other[TF0] = 0;
    check(refused(other, C51_CHECKPOINT_52, C51_BAD_VALUE), "never, with a number");
    other[TF0] = 1;
    check(c51_load(other, C51_CHECKPOINT_52).code == C51_PASSED, "all as it was");
}

/* A call of a list, and its answer. */
typedef struct {
    uint64_t call[C51_CALL_WORDS];
    uint64_t answer[C51_ANSWER_WORDS];
} called;

/* The interrupt of Timer 0 once more, from a record of zeros, with every form of an answer, whose last words are 0 where they are left
 * out. An argument counts by its low 8 bits. */
static const called interrupt[] = {
    {{C51_CALL_OFFER, 0, 0}, {C51_BAD_RECORD, 1, 0}},
    {{C51_CALL_RESET, 0x100 + 52, 0}, {C51_PASSED, 0, 0}},
    {{C51_CALL_WRITE, C51_TMOD, 0x01}, {C51_PASSED, 0, 0}},
    {{C51_CALL_WRITE, C51_TH0, 0xFF}, {C51_PASSED, 0, 0}},
    {{C51_CALL_WRITE, C51_TL0, 0x100 + 0xFE}, {C51_PASSED, 0, 0}},
    {{C51_CALL_WRITE, 0x100 + C51_IE, 0x82}, {C51_PASSED, 0, 0}},
    {{C51_CALL_WRITE, C51_TCON, 0x10}, {C51_PASSED, 0, 0}},
    {{C51_CALL_WRITE, 0, 0}, {C51_BAD_ADDRESS, 0, 0}},
    {{C51_CALL_READ, C51_TL0, 0}, {C51_PASSED, 1, 0xFE}},
    {{C51_CALL_READ, 0, 0}, {C51_BAD_ADDRESS, 1, 0}},
    {{C51_CALL_LOOK, C51_PINS_HIGH, 1}, {C51_PASSED, C51_NONE, 0}},
    {{C51_CALL_LOOK, C51_PINS_HIGH, C51_MAX_CYCLES}, {C51_PASSED, 1, 2}},
    {{C51_CALL_LOOK, C51_PINS_HIGH, C51_MAX_CYCLES + 1}, {C51_TOO_LONG, 1, 0}},
    {{C51_CALL_WAKE, C51_PINS_HIGH, 2}, {C51_PASSED, C51_NONE, 0}},
    {{C51_CALL_WAKE, 0x100 + C51_PINS_HIGH, C51_MAX_CYCLES}, {C51_PASSED, 1, 3}},
    {{C51_CALL_WAKE, C51_PINS_HIGH, C51_MAX_CYCLES + 1}, {C51_TOO_LONG, 1, 0}},
    {{C51_CALL_CYCLE, C51_PINS_HIGH, 0}, {C51_PASSED, 1, 1}},
    {{C51_CALL_CYCLE, 0x80, 0}, {C51_BAD_PINS, 1, 0}},
    {{C51_CALL_JUMP, C51_PINS_HIGH, C51_MAX_CYCLES + 1}, {C51_TOO_LONG, 4, 0, 0, 0, 0}},
    {{C51_CALL_JUMP, C51_PINS_HIGH, 0}, {C51_PASSED, 4, 0, 0, 0, 0}},
    {{C51_CALL_JUMP, C51_PINS_HIGH, 1}, {C51_PASSED, 4, 1, 0, 0, 1}},
    {{C51_CALL_OFFER, 0, 0}, {C51_PASSED, C51_NONE, 0}},
    {{C51_CALL_TRACE, 0, 2}, {C51_EMPTY_ENTRY, 3, 0, 0, 0}},
    {{C51_CALL_TRACE, 1, 2}, {C51_PASSED, 3, 0, 0, 0}},
    {{C51_CALL_TRACE, 1, 0}, {C51_PASSED, 3, 0, 0, 0}}, /* not in order: empty */
    {{C51_CALL_TRACE, 0, 3}, {C51_PASSED, 3, 0, 0, 0}}, /* not in range: empty */
    {{C51_CALL_OFFER, 0, 0}, {C51_PASSED, 1, 0x0B}},
    {{C51_CALL_TAKE, 0, 0}, {C51_PASSED, 1, 0x0B}},
    {{C51_CALL_TAKE, 0, 0}, {C51_NOTHING_OFFERED, 1, 0}},
    {{C51_CALL_RETURN, 0, 0}, {C51_PASSED, 0, 0}},
    {{C51_CALL_WAKE + 1, 0, 0}, {C51_NOTHING_IN_SERVICE, 0, 0}},
    {{C51_CALL_WRITE, C51_PCON, C51_PCON_PD}, {C51_PASSED, 0, 0}},
    {{C51_CALL_WRITE, C51_PCON, 0}, {C51_POWERED_DOWN, 0, 0}},
    {{C51_CALL_TAKE, 0, 0}, {C51_POWERED_DOWN, 1, 0}},
    {{C51_CALL_RETURN, 0, 0}, {C51_POWERED_DOWN, 0, 0}},
    {{C51_CALL_JUMP, C51_PINS_HIGH, C51_MAX_CYCLES}, {C51_PASSED, 4, 0, 0, 0, 1}},
    {{C51_CALL_CYCLE, C51_PINS_HIGH, 0}, {C51_PASSED, 1, 1}},
    {{C51_CALL_WAKE, C51_PINS_HIGH, 0}, {C51_PASSED, C51_NONE, 0}},
};
enum { CALLS = sizeof interrupt / sizeof *interrupt };

static void lists(void) {
    const uint32_t entries[2] = {0x7F000000u, 0x7F000001u};
    uint64_t calls[CALLS * C51_CALL_WORDS], answers[CALLS * C51_ANSWER_WORDS];
    c51_device zeros = c51_reset(0).device, device = zeros;
    size_t i;
    char what[40];
    for (i = 0; i < CALLS; i++) memcpy(calls + i * C51_CALL_WORDS, interrupt[i].call, sizeof interrupt[i].call);
    memset(answers, 0x55, sizeof answers);
    c51_replay(&device, calls, CALLS * C51_CALL_WORDS, entries, 2, answers, CALLS * C51_ANSWER_WORDS);
    for (i = 0; i < CALLS; i++) {
        sprintf(what, "call %u of the list", (unsigned)i);
        check(memcmp(answers + i * C51_ANSWER_WORDS, interrupt[i].answer, sizeof interrupt[i].answer) == 0, what);
    }
    check(device.kind == 52 && device.cycle == 3 && device.interrupts.low == 0, "the device after the list");

    /* As many calls as there are whole rows of both; what lies past them stays. */
    for (i = 0; i < 2 * C51_ANSWER_WORDS; i++) answers[i] = 7;
    device = zeros;
    c51_replay(&device, calls, 2 * C51_CALL_WORDS, entries, 2, answers, 2 * C51_ANSWER_WORDS - 1);
    check(same(&device, &zeros) && answers[0] == C51_BAD_RECORD, "one whole row of answers");
    c51_replay(&device, calls, 2 * C51_CALL_WORDS - 1, entries, 2, answers, 2 * C51_ANSWER_WORDS);
    check(same(&device, &zeros) && answers[0] == C51_BAD_RECORD, "one whole row of calls");
    for (i = C51_ANSWER_WORDS; i < 2 * C51_ANSWER_WORDS; i++) check(answers[i] == 7, "past the last answer");
    c51_replay(&device, calls, 0, entries, 0, answers, 0);
    check(same(&device, &zeros) && answers[0] == C51_BAD_RECORD, "an empty list");
    c51_replay(&device, calls + C51_CALL_WORDS, C51_CALL_WORDS, entries, 0, answers, C51_ANSWER_WORDS);
    check(device.kind == 52 && answers[0] == C51_PASSED, "a list without entries");
    calls[1] = 53;
    calls[0] = C51_CALL_RESET;
    c51_replay(&device, calls, C51_CALL_WORDS, entries, 0, answers, C51_ANSWER_WORDS);
    check(device.kind == 0 && answers[0] == C51_BAD_KIND, "a refused reset leaves zeros");
}

static int same_counter(const c53_counter *a, const c53_counter *b) {
    return a->mode == b->mode && a->bcd == b->bcd && a->format == b->format && a->output == b->output && a->gate == b->gate &&
           a->loaded == b->loaded && a->waits == b->waits && a->first == b->first && a->low == b->low && a->high == b->high &&
           a->latched == b->latched && a->count == b->count && a->reload == b->reload && a->waiting == b->waiting &&
           a->latch == b->latch;
}

static int same_interval(const c53_interval *a, const c53_interval *b) {
    return same_counter(&a->counter0, &b->counter0) && same_counter(&a->counter1, &b->counter1) && same_counter(&a->counter2, &b->counter2);
}

/* Counter 1 in mode 0, both bytes, binary: a count of 0102. Counter 2 in mode 2, low byte, BCD: a count of 3. */
static void intervals(void) {
    c53_interval interval = c53_reset(), before;
    c51_value_answer read;
    c53_outputs_answer pulse;
    int i;
    check(interval.counter0.format == 3 && interval.counter2.format == 3 && c53_outputs(interval) == 0, "reset of the 82C53");
    check(c53_accepts(interval) == 1, "accepts of the 82C53");
    check(c53_write(&interval, C53_CONTROL, C53_SELECT1 | C53_BOTH | C53_MODE0) == C51_PASSED, "control word of counter 1");
    check(c53_write(&interval, C53_CONTROL, C53_SELECT2 | C53_LOW | C53_MODE2 | C53_BCD) == C51_PASSED, "control word of counter 2");
    check(c53_outputs(interval) == C53_OUT2, "the output is low in mode 0 and high in mode 2");
    check(c53_write(&interval, C53_COUNTER1, 0x02) == C51_PASSED && c53_write(&interval, C53_COUNTER1, 0x01) == C51_PASSED, "a count");
    check(c53_write(&interval, C53_COUNTER2, 3) == C51_PASSED, "a count of one byte");

    before = interval;
    check(c53_write(&interval, C53_CONTROL, 0xC2) == C51_BAD_CHOICE, "counter choice 3, before another mode");
    check(c53_write(&interval, 4, 0) == C51_BAD_CHOICE, "an address above 3");
    check(c53_write(&interval, C53_CONTROL, C53_BOTH | 0x02) == C51_BAD_MODE, "another mode");
    check(c53_write(&interval, C53_COUNTER2, 0x0A) == C51_BAD_COUNT, "a digit above nine");
    check(c53_write(&interval, C53_COUNTER2, 1) == C51_BAD_COUNT, "a mode 2 count of 1");
    read = c53_read(&interval, C53_CONTROL);
    check(read.code == C51_BAD_CHOICE && read.value == 0, "a read at 3");
    pulse = c53_pulse(&interval, 8);
    check(pulse.code == C51_BAD_PINS && pulse.outputs == 0, "a pulse refused");
    check(c53_jump(&interval, 8, C51_MAX_CYCLES + 1).code == C51_BAD_PINS, "a jump of the 82C53 refused, 4 before 5");
    pulse = c53_jump(&interval, C53_GATES_HIGH, C51_MAX_CYCLES + 1);
    check(pulse.code == C51_TOO_LONG && pulse.outputs == 0, "a jump of the 82C53 refused");
    check(same_interval(&interval, &before), "a refused call leaves the 82C53");

    for (i = 1; i <= 9; i++) {
        pulse = c53_pulse(&interval, C53_GATES_HIGH);
        check(pulse.code == C51_PASSED && pulse.outputs == (i % 3 == 0 ? 0 : C53_OUT2), "counter 2 is low in one pulse of three");
    }
    check(interval.counter1.count == 0x0102 - 8 && interval.counter2.count == 1, "the loading pulse does not count");
    check(c53_read(&interval, C53_COUNTER1).value == 0xFA, "low byte");
    check(c53_write(&interval, C53_CONTROL, C53_SELECT1 | C53_LATCH) == C51_PASSED, "latch");
    check(c53_jump(&interval, C53_GATE1, 0xFA).outputs == (C53_OUT1 | C53_OUT2), "counter 1 ends, counter 2 is held high");
    check(c53_read(&interval, C53_COUNTER1).value == 0x00 && interval.counter1.latched == 0, "the latched high byte");
    check(c53_jump(&interval, 0, C51_MAX_CYCLES).outputs == (C53_OUT1 | C53_OUT2), "gates low");
    check(interval.counter1.count == 0 && interval.counter2.count == 1, "and nothing counts");
    check(c53_jump(&interval, C53_GATE1, C51_MAX_CYCLES).code == C51_PASSED && interval.counter1.count == 0, "2^24 laps");

    interval.counter2.count = 10000;
    before = interval;
    check(c53_accepts(interval) == 0, "a record refused");
    check(c53_write(&interval, 4, 0) == C51_BAD_RECORD && c53_read(&interval, 3).code == C51_BAD_RECORD, "write and read of it");
    check(c53_pulse(&interval, 8).code == C51_BAD_RECORD && c53_jump(&interval, 0, 0).code == C51_BAD_RECORD, "pulses of it");
    check(same_interval(&interval, &before) && c53_outputs(interval) == (C53_OUT1 | C53_OUT2), "and it stays");
}

/* A refusal leaves both chips, power-down stops one of them, and a jump ends as cycles do. */
static void boards(void) {
    c51_board board, before, jumped;
    c51_board_answer cycle = {0, 0, 0};
    c51_board_jump_answer jump;
    int i;
    board.device = c51_reset(52).device;
    board.interval = c53_reset();
    check(c51_write(&board.device, C51_TMOD, 0x02) == C51_PASSED, "Timer 0 laps in 256 cycles");
    check(c51_write(&board.device, C51_TCON, 0x10) == C51_PASSED, "Timer 0 runs");
    check(c53_write(&board.interval, C53_CONTROL, C53_SELECT0 | C53_LOW | C53_MODE2) == C51_PASSED, "control word on a board");
    check(c53_write(&board.interval, C53_COUNTER0, 5) == C51_PASSED, "count on a board");
    before = jumped = board;
    check(c51_board_cycle(&board, 0x80, 0).code == C51_BAD_PINS, "board cycle refused by its pins");
    cycle = c51_board_cycle(&board, C51_PINS_HIGH, 8);
    check(cycle.code == C51_BAD_PINS && cycle.line == 0 && cycle.outputs == 0, "board cycle refused by its gates");
    check(c51_board_jump(&board, C51_PINS_HIGH, 8, C51_MAX_CYCLES + 1).code == C51_BAD_PINS, "board jump refused, 4 before 5");
    jump = c51_board_jump(&board, C51_PINS_HIGH, C53_GATES_HIGH, C51_MAX_CYCLES + 1);
    check(jump.code == C51_TOO_LONG && jump.outputs == 0 && are(jump.totals, 0, 0, 0) && jump.rounds == 0, "board jump refused");
    check(same(&board.device, &before.device) && same_interval(&board.interval, &before.interval), "a refusal leaves both chips");

    for (i = 0; i < 1000; i++) cycle = c51_board_cycle(&board, C51_PINS_HIGH, C53_GATES_HIGH);
    check(cycle.code == C51_PASSED && cycle.line == 1 && cycle.outputs == 0, "cycle 1,000 of the board");
    check(c51_board_jump(&jumped, C51_PINS_HIGH, C53_GATES_HIGH, 0).rounds == 0, "no round in no cycle of the board");
    jump = c51_board_jump(&jumped, C51_PINS_HIGH, C53_GATES_HIGH, 1000);
    check(jump.code == C51_PASSED && jump.outputs == 0 && are(jump.totals, 3, 0, 0), "a jump of the board");
    check(jump.rounds == 3 + 1 + 4, "three overflows, the cycle that polls TF0, and the four runs between them");
    check(same(&board.device, &jumped.device) && same_interval(&board.interval, &jumped.interval), "and it ends as the cycles do");

    check(c51_write(&board.device, C51_PCON, C51_PCON_PD) == C51_PASSED, "power-down on a board");
    before = board;
    cycle = c51_board_cycle(&board, 0, C53_GATES_HIGH);
    check(cycle.code == C51_PASSED && cycle.line == 1 && cycle.outputs == C53_OUT0, "the 82C53 goes on");
    jump = c51_board_jump(&board, 0, C53_GATES_HIGH, 4);
    check(jump.code == C51_PASSED && jump.outputs == 0 && are(jump.totals, 0, 0, 0), "by jumps too, in which the chip's timers stand");
    check(jump.rounds == 1, "and pulses make no round");
    check(c53_write(&board.interval, C53_COUNTER0, 9) == C51_PASSED && board.interval.counter0.waiting == 9, "and so do its calls");
    check(same(&board.device, &before.device), "and the chip stays");

    board.interval.counter1.format = 0;
    check(c51_board_cycle(&board, 0x80, 8).code == C51_BAD_RECORD, "board cycle of an 82C53 that is refused");
    check(c51_board_jump(&board, 0, 0, 0).code == C51_BAD_RECORD, "board jump of it");
    board.interval = c53_reset();
    board.device.kind = 0;
    check(c51_board_cycle(&board, 0, 0).code == C51_BAD_RECORD, "board cycle of a device that is refused");
    check(c51_board_jump(&board, 0x80, 8, 0).code == C51_BAD_RECORD, "board jump of it");
}

static int gives(c51_speed_answer a, uint8_t code, uint8_t found, uint8_t smod, uint8_t th1, uint64_t achieved) {
    return a.code == code && a.found == found && a.smod == smod && a.th1 == th1 && a.achieved == achieved;
}

/* Exactly, none and the tolerance that suffices, ties to SMOD 0 and to the larger TH1, the ends of the limits, and past each. */
static void speeds(void) {
    const uint64_t bits_32 = (uint64_t)1 << 32;
    check(gives(c51_speed(11059200, 9600, 0), C51_PASSED, 1, 0, 0xFD, 9600), "9,600 at 11.0592 MHz");
    check(gives(c51_speed(11059200, 19200, 0), C51_PASSED, 1, 1, 0xFD, 19200), "19,200 at 11.0592 MHz");
    check(gives(c51_speed(12000000, 9600, 50), C51_PASSED, 0, 0, 0, 0), "9,600 at 12 MHz: none");
    check(gives(c51_speed(12000000, 9600, 699), C51_PASSED, 0, 0, 0, 0), "none still");
    check(gives(c51_speed(12000000, 9600, 700), C51_PASSED, 1, 1, 0xF9, 8928), "a tolerance that suffices");
    check(gives(c51_speed(4608, 7, C51_MAX_TOLERANCE), C51_PASSED, 1, 0, 0xFE, 6), "a tie to SMOD 0");
    check(gives(c51_speed(12681216, 257, C51_MAX_TOLERANCE), C51_PASSED, 1, 0, 0x80, 258), "a tie to the larger TH1");
    check(gives(c51_speed(3859200, 10000, 50), C51_PASSED, 1, 0, 0xFF, 10050), "off by the tolerance");
    check(gives(c51_speed(3859200, 10000, 49), C51_PASSED, 0, 0, 0, 0), "off by more");
    check(gives(c51_speed(1, 1, C51_MAX_TOLERANCE), C51_PASSED, 1, 1, 0xFF, 0), "the least crystal and rate");
    check(gives(c51_speed(C51_MAX_CRYSTAL, C51_MAX_RATE, C51_MAX_TOLERANCE), C51_PASSED, 1, 1, 0xFF, 208333), "the greatest");
    check(gives(c51_speed(0, 9600, 50), C51_BAD_SPEED, 0, 0, 0, 0), "no crystal");
    check(gives(c51_speed(C51_MAX_CRYSTAL + 1, 9600, 50), C51_BAD_SPEED, 0, 0, 0, 0), "too great a crystal");
    check(gives(c51_speed(bits_32 + 11059200, 9600, 50), C51_BAD_SPEED, 0, 0, 0, 0), "a crystal of 33 bits");
    check(gives(c51_speed(11059200, 0, 50), C51_BAD_SPEED, 0, 0, 0, 0), "no rate");
    check(gives(c51_speed(11059200, C51_MAX_RATE + 1, 50), C51_BAD_SPEED, 0, 0, 0, 0), "too great a rate");
    check(gives(c51_speed(11059200, bits_32 + 9600, 50), C51_BAD_SPEED, 0, 0, 0, 0), "a rate of 33 bits");
    check(gives(c51_speed(11059200, 9600, C51_MAX_TOLERANCE + 1), C51_BAD_SPEED, 0, 0, 0, 0), "too great a tolerance");
    check(gives(c51_speed(11059200, 9600, bits_32), C51_BAD_SPEED, 0, 0, 0, 0), "a tolerance of 33 bits");
    check(gives(c51_speed(UINT64_MAX, UINT64_MAX, UINT64_MAX), C51_BAD_SPEED, 0, 0, 0, 0), "all of it");
}

/* Whether the shares of 4 tunnels are these. */
static int shared(const uint64_t *shares, uint64_t a, uint64_t b, uint64_t c, uint64_t d) {
    return shares[0] == a && shares[1] == b && shares[2] == c && shares[3] == d;
}

/* What is over goes to the first tunnels first, no tunnel gets more than it wishes for; the refusals, 18 before 19, leave the shares. */
static void slices(void) {
    uint64_t wishes[C51_MAX_TUNNELS + 1] = {1, 9, 2, 9};
    uint64_t shares[C51_MAX_TUNNELS + 1] = {7, 7, 7, 7, 7};
    size_t i;
    check(c51_shares(10, wishes, 4, shares, 4) == C51_PASSED && shared(shares, 1, 5, 2, 2), "10 cycles for 4 tunnels");
    check(shares[4] == 7, "no share past them");
    check(c51_shares(100, wishes, 4, shares, 4) == C51_PASSED && shared(shares, 1, 9, 2, 9), "more than all wishes");
    check(c51_shares(11, wishes, 0, shares, 0) == C51_BAD_TUNNELS, "no tunnel");
    check(c51_shares(11, wishes, 4, shares, 3) == C51_BAD_TUNNELS, "a share too few");
    check(c51_shares(11, wishes, 4, shares, 5) == C51_BAD_TUNNELS, "a share too many");
    check(c51_shares(C51_MAX_CYCLES + 1, wishes, 4, shares, 3) == C51_BAD_TUNNELS, "18 before 19");
    check(c51_shares(C51_MAX_CYCLES + 1, wishes, 4, shares, 4) == C51_BAD_WISH, "too long a slice");
    wishes[3] = C51_MAX_CYCLES + 1;
    check(c51_shares(11, wishes, 4, shares, 4) == C51_BAD_WISH, "too great a wish");
    check(shared(shares, 1, 9, 2, 9) && shares[4] == 7, "a refusal leaves the shares");
    wishes[3] = C51_MAX_CYCLES;
    check(c51_shares(C51_MAX_CYCLES, wishes, 4, shares, 4) == C51_PASSED && shared(shares, 1, 9, 2, C51_MAX_CYCLES - 12), "the limits");
    for (i = 0; i <= C51_MAX_TUNNELS; i++) wishes[i] = 2;
    check(c51_shares(65, wishes, 65, shares, 65) == C51_BAD_TUNNELS, "65 tunnels");
    check(c51_shares(65, wishes, 64, shares, 64) == C51_PASSED && shared(shares, 2, 1, 1, 1) && shares[63] == 1, "64 tunnels");
}

int main(void) {
    calls();
    rises();
    totals();
    rounds();
    checkpoints();
    lists();
    intervals();
    boards();
    speeds();
    slices();
    if (failures == 0) printf("passed\n");
    return failures != 0;
}
