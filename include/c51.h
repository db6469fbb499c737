/*
 * The proved peripherals of the 80C51 and 80C52: timers, serial port and interrupt controller; checkpoints, by which a live device
 * moves to another computer; the 82C53 interval timer beside the chip; a finder that gives SMOD and TH1 for a wanted speed; and the
 * shares of a time slice, by which many devices run on one computer.
 *
 * A device is one record, c51_device, which the caller owns: the library keeps nothing between calls, so that any number of
 * devices run side by side and in any number of threads. So is an 82C53, c53_interval, and a board that has both, c51_board. Every
 * call is answered for every content of the record and of its other arguments; only a pointer has to point where its comment says. Of
 * other libraries it calls memcpy alone.
 *
 * A call answers a code: 0, or the number of the refusal. The lowest number applies, with four exceptions: 10 goes after 1 and
 * before 3, 6 and 7; 12 goes before 11; in a trace 5 goes first after 1, then the first bad entry, 4 before 8 within it; and of
 * 15, 16 and 17 the first fault from the front of a checkpoint decides. A refused call leaves the record as it was, and every other
 * number of its answer is 0. Each call but c51_reset, c51_accepts, c53_reset, c53_accepts, c53_outputs, and c51_load, c51_speed and
 * c51_shares, which take none, first judges the record, so that each of them may answer C51_BAD_RECORD.
 */
#ifndef C51_H
#define C51_H

#include <stddef.h>
#include <stdint.h>

#ifdef __cplusplus
extern "C" {
#endif

/* The codes. 9 is retired and is not used again: it stood for a serial counter that rolls over twice in one cycle, which is proved
 * never to happen. */
enum {
    C51_PASSED = 0,
    C51_BAD_RECORD = 1,         /* a field outside its range or mask, or a kind that is neither 51 nor 52 */
    C51_BAD_KIND = 2,           /* reset with another kind than 51 or 52 */
    C51_BAD_ADDRESS = 3,        /* read or write at an address that this kind lacks */
    C51_BAD_PINS = 4,           /* a pin byte, also in a trace, with bit 7 set; a gate byte above 7 */
    C51_TOO_LONG = 5,           /* more than C51_MAX_CYCLES cycles or pulses, or a trace of more than C51_MAX_TRACE entries */
    C51_NOTHING_OFFERED = 6,    /* take with nothing offered */
    C51_NOTHING_IN_SERVICE = 7, /* return with nothing in service */
    C51_EMPTY_ENTRY = 8,        /* a trace entry of 0 cycles */
    C51_POWERED_DOWN = 10,      /* write, take or return in power-down */
    C51_BAD_MODE = 11,          /* a control word of the 82C53 with another mode than 0 and 2 */
    C51_BAD_CHOICE = 12,        /* a control word with counter choice 3, an address of the 82C53 above 3, or a read at 3 */
    C51_BAD_COUNT = 13,         /* a BCD digit above nine or a mode 2 count of 1, tested when the count is complete */
    C51_BAD_SPEED = 14,         /* a crystal, rate or tolerance outside its limits */
    C51_BAD_LENGTH = 15,        /* a checkpoint cut short or with bytes left over; a buffer of another length than the checkpoint has */
    C51_BAD_LAYOUT = 16,        /* a checkpoint with another count or another address */
    C51_BAD_VALUE = 17,         /* a checkpoint with a value that C51_BAD_RECORD is for, an ever byte above 1, or a received byte that
                                 * is not the entry of SBUF */
    C51_BAD_TUNNELS = 18,       /* shares for zero or more than 64 tunnels, or an output of another length */
    C51_BAD_WISH = 19           /* a time slice or a wish of more than 2^40 cycles */
};

#define C51_MAX_CYCLES ((uint64_t)1 << 40) /* of one jump, look ahead or wake look, of a time slice or a wish; pulses likewise */
#define C51_MAX_TRACE 65536u               /* entries of one trace */
#define C51_MAX_CRYSTAL 40000000u          /* Hz; from 1 */
#define C51_MAX_RATE 1000000u              /* wanted bits a second; from 1 */
#define C51_MAX_TOLERANCE 10000u           /* hundredths of a percent of the wanted rate; from 0 */
#define C51_MAX_TUNNELS 64                 /* tunnels of a time slice; from 1 */
#define C51_CHECKPOINT_51 297              /* bytes of a checkpoint of kind 51 */
#define C51_CHECKPOINT_52 307              /* and of kind 52 */

/* The pin byte of a cycle: a bit for each pin, bit 7 is 0. Kind 51 takes T2 and T2EX as 1. */
enum {
    C51_PIN_RXD = 0x01,
    C51_PIN_INT0 = 0x02,
    C51_PIN_INT1 = 0x04,
    C51_PIN_T0 = 0x08,
    C51_PIN_T1 = 0x10,
    C51_PIN_T2 = 0x20,
    C51_PIN_T2EX = 0x40,
    C51_PINS_HIGH = 0x7F
};

/* The addresses of the registers; those of Timer 2 on kind 52 alone. */
enum {
    C51_PCON = 0x87,
    C51_TCON = 0x88,
    C51_TMOD = 0x89,
    C51_TL0 = 0x8A,
    C51_TL1 = 0x8B,
    C51_TH0 = 0x8C,
    C51_TH1 = 0x8D,
    C51_SCON = 0x98,
    C51_SBUF = 0x99,
    C51_IE = 0xA8,
    C51_IP = 0xB8,
    C51_T2CON = 0xC8,
    C51_RCAP2L = 0xCA,
    C51_RCAP2H = 0xCB,
    C51_TL2 = 0xCC,
    C51_TH2 = 0xCD
};

/* Bits of PCON. In idle the peripherals go on as before, and a take clears IDL. Power-down wins over idle and only reset ends it: a
 * cycle, jump or trace run passes and alters nothing, not even the cycle number (a cycle answers the line as the device stands);
 * nothing is offered, look ahead and wake look find none, and write, take and return are refused by 10. The write that sets PD
 * passes. */
enum {
    C51_PCON_IDL = 0x01, /* idle */
    C51_PCON_PD = 0x02,  /* power-down */
    C51_PCON_SMOD = 0x80 /* double baud rate */
};

/* The flags, by their places in the flag times; TF2 and EXF2 rise on kind 52 alone. */
enum {
    C51_FLAG_TF0 = 0,
    C51_FLAG_TF1 = 1,
    C51_FLAG_IE0 = 2,
    C51_FLAG_IE1 = 3,
    C51_FLAG_RI = 4,
    C51_FLAG_TI = 5,
    C51_FLAG_TF2 = 6,
    C51_FLAG_EXF2 = 7
};

/* ---------------------------------------------------------------- the record: each field with what an accepted record has in it */

/* Timers 0 and 1. */
typedef struct {
    uint8_t tcon; /* TCON */
    uint8_t tmod; /* TMOD */
    uint8_t tl0;  /* TL0 */
    uint8_t tl1;  /* TL1 */
    uint8_t th0;  /* TH0 */
    uint8_t th1;  /* TH1 */
    uint8_t due0; /* 0 or 1: T0 fell in the last cycle, a counter counts in the next */
    uint8_t due1; /* 0 or 1: the same of T1 */
} c51_timers;

/* Timer 2; all 0 on kind 51. */
typedef struct {
    uint8_t t2con;  /* T2CON */
    uint8_t rcap2l; /* RCAP2L */
    uint8_t rcap2h; /* RCAP2H */
    uint8_t tl2;    /* TL2 */
    uint8_t th2;    /* TH2 */
    uint8_t due2;   /* 0 or 1: T2 fell in the last cycle */
} c51_timer2;

/* The sender. */
typedef struct {
    uint8_t position; /* 0 resting, 1 asked, 2 start bit, 3 to 10 data bits, 11 ninth bit (serial modes 2 and 3 alone) */
    uint16_t value;   /* 0 to 511: the byte and, in bit 8, TB8 */
    uint8_t counter;  /* 0 to 15: ticks of the bit */
} c51_sender;

/* The receiver. */
typedef struct {
    uint8_t position; /* 0 resting, 1 start bit, 2 to 9 data bits, 10 stop or ninth bit, 11 stop bit (serial modes 2 and 3 alone) */
    uint16_t value;   /* 0 to 511: the bits so far */
    uint8_t counter;  /* 0 to 15: ticks of the bit; the line is sampled at 7, 8 and 9 */
    uint8_t votes;    /* 0 to 2: the samples so far that were 1 */
    uint8_t sample;   /* 0 or 1: RXD at the last tick */
} c51_receiver;

/* The serial port. */
typedef struct {
    uint8_t scon; /* SCON */
    c51_sender send;
    c51_receiver receive;
    uint8_t half;     /* 0 or 1: with SMOD 0 every second overflow of Timer 1 is a tick */
    uint8_t received; /* the received byte, which a read of SBUF gives */
} c51_serial;

/* The interrupt controller. */
typedef struct {
    uint8_t ie;     /* IE, within BF (kind 51: 9F) */
    uint8_t ip;     /* IP, within 3F (kind 51: 1F) */
    uint8_t seen;   /* 0 to 63: the sources as the last cycle left them, IE0 TF0 IE1 TF1 serial Timer 2 from bit 0 */
    uint8_t polled; /* 0 to 63: the same a cycle earlier, Timer 2 also if an overflow set TF2 in the last; offers come from here */
    uint8_t low;    /* 0 or 1: an interrupt of the low level is in service */
    uint8_t high;   /* 0 or 1: one of the high level is */
} c51_interrupts;

/* When each flag last rose, at its C51_FLAG. A flag rises in a cycle that finds it 0 and leaves it 1: one that is set again does
 * not, and a write by software never counts. Jumps and trace runs leave what their single cycles leave. Reset clears all of it, and
 * nothing else does: power-down and refused calls keep it. */
typedef struct {
    uint8_t ever[8];    /* 0 or 1: the flag rose since reset; those of TF2 and EXF2 may be 1 on kind 51 too */
    uint64_t number[8]; /* the cycle number after the cycle in which it last rose, which may be any; 0 where ever is 0 */
} c51_flag_times;

/* The device record. */
typedef struct {
    uint8_t kind; /* 51 or 52 */
    uint8_t pcon; /* PCON, within 8F; its bits are named above */
    c51_timers timers;
    c51_timer2 timer2;
    c51_serial serial;
    c51_interrupts interrupts;
    uint8_t levels[7]; /* 0 or 1: the levels of the last cycle, RXD INT0 INT1 T0 T1 T2 T2EX */
    uint64_t cycle;    /* the cycle number, which wraps */
    c51_flag_times times;
} c51_device;

/* The record is laid out as the library has it; with another layout, as of packed structs, this does not compile. */
typedef char c51_device_layout[sizeof(c51_device) == 128 && offsetof(c51_device, times) == 56 ? 1 : -1];

/* Of an accepted device and a C51_FLAG: 1 where the flag rose since reset, 0 where it never did. */
#define C51_EVER_ROSE(device, flag) ((device).times.ever[flag])

/* The cycle number after the cycle in which the flag last rose, 0 where it never did. It wraps with the cycle number, so that one
 * that rose may have 0 too; C51_EVER_ROSE tells them apart. */
#define C51_LAST_RISE(device, flag) ((device).times.number[flag])

/* ---------------------------------------------------------------- the answers */

/* A reset: the device after it, a record all zero where it is refused. A load: the device of the checkpoint, or the same. */
typedef struct {
    uint8_t code;
    c51_device device;
} c51_answer;

/* A cycle: the output line as the cycle leaves it. */
typedef struct {
    uint8_t code;
    uint8_t line;
} c51_line_answer;

/* A take: the vector. */
typedef struct {
    uint8_t code;
    uint8_t vector;
} c51_vector_answer;

/* A read: the register, or the byte of a count. */
typedef struct {
    uint8_t code;
    uint8_t value;
} c51_value_answer;

/* An offer: offered is 1 and vector is the vector; or both are 0. */
typedef struct {
    uint8_t code;
    uint8_t offered;
    uint8_t vector;
} c51_offer_answer;

/* A look ahead: found is 1 and at is the cycle, counted from 1; or both are 0. A wake look: the same, but at counts from 0. */
typedef struct {
    uint8_t code;
    uint8_t found;
    uint64_t at;
} c51_look_answer;

/* The overflows of each timer in the cycles of a jump or a trace run: all 0 in power-down, and where it has no cycles. They
 * never wrap, a run having at most C51_MAX_CYCLES cycles. A single cycle does not answer them; a jump of 1 does. */
typedef struct {
    uint64_t timer0; /* in mode 3 those of TL0 and those of TH0, so that a cycle may add 2 */
    uint64_t timer1; /* also those that set no flag, where Timer 0 is in mode 3 */
    uint64_t timer2; /* up to 6 a cycle as a baud rate generator; a reload by T2EX is none; always 0 on kind 51 */
} c51_totals;

/* A trace run: the overflows in its cycles. */
typedef struct {
    uint8_t code;
    c51_totals totals;
} c51_run_answer;

/* A jump: the overflows in its cycles, and its rounds, by which it costs. Each busy cycle is a round, and each longest run of other
 * cycles is one, whatever its length; so there are at most 2 * busy cycles + 1. A cycle is busy where a timer overflows in it, where the
 * send or the receive position is not 0 before or after it, also of a frame that waits on a stopped clock, and where a flag, a saved
 * level, a due mark, seen or polled changes in it; in power-down none is. A refused jump and one of 0 cycles have 0 rounds, and a jump
 * of a device at rest or in power-down has 1. A run of other cycles ends with the jump: two jumps may have one round more than one
 * over the cycles of both. */
typedef struct {
    uint8_t code;
    c51_totals totals;
    uint64_t rounds;
} c51_jump_answer;

/* ---------------------------------------------------------------- calls that alter a device in place
 * The pointer is not NULL, is aligned as the type is, and nothing else reads or writes the device during the call. */

/* Writes a register: its implemented bits are stored. SBUF starts a sending; SCON with another mode rests both positions, and in mode 0
 * with REN 1 and RI 0 it asks to receive. Refusals: 1, 10, 3. */
uint8_t c51_write(c51_device *device, uint8_t address, uint8_t value);

/* One machine cycle. Refusals: 1, 4. */
c51_line_answer c51_cycle(c51_device *device, uint8_t pins);

/* n cycles, 0 to C51_MAX_CYCLES, with one pin byte. It costs by its rounds, which it answers: one for each busy cycle and one for each run
 * of others between them (c51_jump_answer); 2^40 busy cycles take about a day. Refusals: 1, 4, 5. */
c51_jump_answer c51_jump(c51_device *device, uint8_t pins, uint64_t n);

/* Runs a trace of count entries, checked whole before it runs: the pin byte in the top 8 bits of an entry, 1 to
 * 16,777,215 cycles in the other 24. entries points to count numbers and is never NULL, even where count is 0.
 * Refusals: 1, 5, 4, 8. */
c51_run_answer c51_trace(c51_device *device, const uint32_t *entries, size_t count);

/* Takes the interrupt that is offered: its level is in service, its bit leaves seen and polled, TF0, TF1 or an edge-triggered
 * IE0 or IE1 is cleared, and so is IDL. Refusals: 1, 10, 6. */
c51_vector_answer c51_take(c51_device *device);

/* Return from interrupt: the high level leaves service, or else the low one. Refusals: 1, 10, 7. */
uint8_t c51_return(c51_device *device);

/* ---------------------------------------------------------------- calls by value: the device that is passed stays as it is */

/* The device after reset. Refusal: 2, and the device is then a record all zero, which every other call refuses by 1. */
c51_answer c51_reset(uint8_t kind);

/* Reads a register; SBUF gives the received byte. Refusals: 1, 3. */
c51_value_answer c51_read(c51_device device, uint8_t address);

/* The vector of the interrupt that is offered, 03 0B 13 1B 23 2B, or none. A flag that a cycle sets is polled in the next, one that
 * is written in the second; an overflow that sets TF2, newly or again, is polled in its own cycle. Refusal: 1. */
c51_offer_answer c51_offer(c51_device device);

/* The first of the next n cycles in which one of TF0, TF1, IE0, IE1, RI, TI, TF2, EXF2 goes from 0 to 1 under this pin byte, or none.
 * Refusals: 1, 4, 5. */
c51_look_answer c51_look(c51_device device, uint8_t pins, uint64_t n);

/* The wake look: the first k from 0 to n such that an interrupt is offered after k cycles with this pin byte, or none; 0 is the
 * device as it stands. It does not ask for IDL. Refusals: 1, 4, 5. */
c51_look_answer c51_wake(c51_device device, uint8_t pins, uint64_t n);

/* 1 where the record is accepted, 0 where every call but reset refuses it by 1. */
uint8_t c51_accepts(c51_device device);

/* ---------------------------------------------------------------- a checkpoint: a device as bytes, to go on from on another computer
 * docs/CHECKPOINT.md has the format byte by byte. It holds all of the record and nothing beside it: not the 82C53, nor the pins of
 * the next cycle. A load and c51_replay make a list of calls that starts from a checkpoint. */

/* Writes the checkpoint of a device into a buffer of just its length, C51_CHECKPOINT_51 or C51_CHECKPOINT_52. buffer points to length
 * bytes and is never NULL, even where length is 0. Refusals: 1, then 15 for another length; the buffer stays as it was. */
uint8_t c51_save(c51_device device, uint8_t *buffer, size_t length);

/* The device of a checkpoint, which is read from the front, each thing judged as soon as it is whole; the first fault decides. A file
 * that passes is the one that c51_save writes of its device, and every call accepts that device. file points to length bytes and is
 * never NULL, even where length is 0. Refusals: 15 where the file ends before what is due, 16, 17, and 15 for bytes left over, last;
 * the device is then a record all zero, which every other call refuses by 1. */
c51_answer c51_load(const uint8_t *file, size_t length);

/* ---------------------------------------------------------------- a whole list of calls at once */

#define C51_CALL_WORDS 3    /* a call: its number, and two arguments */
#define C51_ANSWER_WORDS 6  /* an answer: its code, how many numbers it gives or C51_NONE, and four numbers, 0 past those given */
#define C51_NONE UINT64_MAX /* an offer, a look ahead or a wake look that passed and found none */

/* The calls by number, each with its arguments and with the numbers that it gives, where it gives any. Of a kind, an
 * address, a value and a pin byte the low 8 bits count; an argument that a call does not have may be anything. */
enum {
    C51_CALL_RESET = 0,  /* kind */
    C51_CALL_READ = 1,   /* address; gives the register */
    C51_CALL_WRITE = 2,  /* address, value */
    C51_CALL_CYCLE = 3,  /* pins; gives the output line */
    C51_CALL_JUMP = 4,   /* pins, n; gives four, the totals of Timers 0, 1 and 2, and the rounds */
    C51_CALL_TRACE = 5,  /* start, end: entries[start] to entries[end - 1], none where these are not in order or not in range;
                          * gives three, the totals */
    C51_CALL_LOOK = 6,   /* pins, n; gives the cycle, or C51_NONE */
    C51_CALL_OFFER = 7,  /* gives the vector, or C51_NONE */
    C51_CALL_TAKE = 8,   /* gives the vector */
    C51_CALL_RETURN = 9, /* and so is every number that is not in this list */
    C51_CALL_WAKE = 10   /* pins, n; gives the k, or C51_NONE */
};

/* Runs calls one after the other, each on the device as the one before left it, and writes down the answer to each.
 * A refused call gives 0 for each number that it would give; it leaves the device, but a refused reset leaves a record all
 * zero. The lengths count words: as many calls run as both calls and answers have whole rows for, and what lies past
 * them in answers stays as it was. Each pointer is aligned as its type is, points to as many numbers as its length
 * says and is never NULL, even where that is 0. The device is as for the calls in place, and answers overlaps
 * neither it nor calls nor entries. */
void c51_replay(c51_device *device, const uint64_t *calls, size_t calls_length, const uint32_t *entries, size_t entries_length,
                uint64_t *answers, size_t answers_length);

/* ---------------------------------------------------------------- the 82C53 interval timer
 * Three counters with one clock, each with a gate and an output. Nothing counts before a whole count is written. */

/* The addresses: the bytes of a counter's count, and the control word, which is not read. */
enum {
    C53_COUNTER0 = 0,
    C53_COUNTER1 = 1,
    C53_COUNTER2 = 2,
    C53_CONTROL = 3
};

/* The control word, SC1 SC0 RL1 RL0 M2 M1 M0 BCD: the sum of a C53_SELECT, of C53_LOW, C53_HIGH or C53_BOTH, of a C53_MODE (110 is
 * mode 2 too), and of C53_BCD for a count in BCD. It leaves the counter with count 0, no latch, no count to load and the low byte
 * next, its output low in mode 0 and high in mode 2.
 *
 * A C53_SELECT alone is the latch command: reads give the count as it stood then, until it is read, with C53_BOTH until its high
 * byte is; a second meanwhile is ignored. Its four low bits may be anything. */
enum {
    C53_SELECT0 = 0x00,
    C53_SELECT1 = 0x40,
    C53_SELECT2 = 0x80,
    C53_LATCH = 0x00,
    C53_LOW = 0x10,   /* the low byte is written and read; the high byte of a written count is 00 */
    C53_HIGH = 0x20,  /* the high byte is; the low byte of a written count is 00 */
    C53_BOTH = 0x30,  /* low and high in turn, in writes and in reads, each by itself */
    C53_MODE0 = 0x00, /* interrupt on terminal count */
    C53_MODE2 = 0x04, /* rate generator */
    C53_BCD = 0x01
};

/* A written count of 0 is 65,536, in BCD 10,000. The pulse that loads a count does not count it down.
 *
 * Mode 0: a written count is loaded by the next pulse, whatever the gate. Pulses with the gate high count it down, and go on below
 * 0. The output rises with the pulse that brings the count to 0, and falls with the write that completes a new one; the first of two
 * bytes stops counting.
 *
 * Mode 2: the first count is loaded by the next pulse, whatever the gate; a later one at the next reload. Pulses with the gate high
 * count down; the output is low while the count is 1, and the next pulse reloads. So does a pulse that finds the gate risen. A pulse
 * with the gate low holds the count and leaves the output high. */

/* Bits of a gate byte, the others being 0, and of the outputs. */
enum {
    C53_GATE0 = 0x01,
    C53_GATE1 = 0x02,
    C53_GATE2 = 0x04,
    C53_GATES_HIGH = 0x07,
    C53_OUT0 = 0x01,
    C53_OUT1 = 0x02,
    C53_OUT2 = 0x04
};

/* A counter: each field with what an accepted record has in it. A mark is 0 or 1; a count is a number, in BCD too: 0 to 65,535, and
 * with bcd 1 to 9,999. */
typedef struct {
    uint8_t mode;     /* 0 or 2 */
    uint8_t bcd;      /* mark: it counts in BCD */
    uint8_t format;   /* 1 low byte, 2 high byte, 3 both */
    uint8_t output;   /* 0 or 1: the output's level */
    uint8_t gate;     /* 0 or 1: the gate's level at the last pulse */
    uint8_t loaded;   /* mark: a count was loaded since the control word, and is in reload */
    uint8_t waits;    /* mark: a whole count is written and waits for its load, in waiting */
    uint8_t first;    /* mark: the first of two bytes is written, and is in low */
    uint8_t low;      /* any byte */
    uint8_t high;     /* mark: of both bytes the high one is read next */
    uint8_t latched;  /* mark: a count is latched, and is in latch */
    uint16_t count;   /* the count as it stands */
    uint16_t reload;  /* the count loaded last */
    uint16_t waiting; /* the count that waits; 0 where none does, as the calls leave it */
    uint16_t latch;   /* the latched count; 0 once it is read, as the calls leave it */
} c53_counter;

/* The 82C53. */
typedef struct {
    c53_counter counter0;
    c53_counter counter1;
    c53_counter counter2;
} c53_interval;

/* A board that has both chips, the 82C53 clocked once a machine cycle. */
typedef struct {
    c51_device device;
    c53_interval interval;
} c51_board;

/* As for the device record. */
typedef char c53_interval_layout[sizeof(c53_interval) == 60 && offsetof(c53_counter, latch) == 18 ? 1 : -1];
typedef char c51_board_layout[sizeof(c51_board) == 192 && offsetof(c51_board, interval) == 128 ? 1 : -1];

/* Pulses: the outputs as they leave them. */
typedef struct {
    uint8_t code;
    uint8_t outputs;
} c53_outputs_answer;

/* A cycle of the board: the output line and the outputs as it leaves them. */
typedef struct {
    uint8_t code;
    uint8_t line;
    uint8_t outputs;
} c51_board_answer;

/* A jump of the board: the outputs as it leaves them, and the chip's overflows and rounds, which pulses add nothing to. */
typedef struct {
    uint8_t code;
    uint8_t outputs;
    c51_totals totals;
    uint64_t rounds;
} c51_board_jump_answer;

/* ---------------------------------------------------------------- calls of the 82C53; a pointer is as for the calls in place */

/* The 82C53 after reset: each counter as a control word for mode 0, binary, both leaves it, the gates taken as low. Never refused. */
c53_interval c53_reset(void);

/* Writes a byte of a count, or the control word. Refusals: 1, 12, 11, 13. After a refused high byte the low byte stands, and the
 * high byte is still due. */
uint8_t c53_write(c53_interval *interval, uint8_t address, uint8_t byte);

/* Reads a byte of a count, which alters which byte is next and frees a latch. Refusals: 1, 12. */
c51_value_answer c53_read(c53_interval *interval, uint8_t address);

/* One pulse, with a gate byte. Refusals: 1, 4. */
c53_outputs_answer c53_pulse(c53_interval *interval, uint8_t gates);

/* n pulses, 0 to C51_MAX_CYCLES, with one gate byte. The cost does not depend on n. Refusals: 1, 4, 5. */
c53_outputs_answer c53_jump(c53_interval *interval, uint8_t gates, uint64_t n);

/* The outputs of the 82C53 as it stands; of a record that is not accepted, the low bit of each output. Never refused. */
uint8_t c53_outputs(c53_interval interval);

/* 1 where the record is accepted, 0 where every call but reset and outputs refuses it by 1. */
uint8_t c53_accepts(c53_interval interval);

/* ---------------------------------------------------------------- calls of the board; a pointer is as for the calls in place
 * A refusal leaves both chips as they were. Power-down of the chip stops neither the pulses nor the calls of the 82C53. Every other
 * call of either chip is made on its record in the board. */

/* One machine cycle and one pulse. Refusals: 1 for either record, 4 for the pin byte or the gate byte. */
c51_board_answer c51_board_cycle(c51_board *board, uint8_t pins, uint8_t gates);

/* n of them, 0 to C51_MAX_CYCLES, with one pin byte and one gate byte. It costs as c51_jump does. Refusals: 1 and 4 as above, 5. */
c51_board_jump_answer c51_board_jump(c51_board *board, uint8_t pins, uint8_t gates, uint64_t n);

/* ---------------------------------------------------------------- from a wanted speed to a reload */

/* A speed: found is 1, smod and th1 are the pair and achieved is its rate in whole bits a second, cut downward; or all four are 0. */
typedef struct {
    uint8_t code;
    uint8_t found;
    uint8_t smod; /* 0 or 1: bit 7 of PCON */
    uint8_t th1;  /* TH1 */
    uint64_t achieved;
} c51_speed_answer;

/* The pair of SMOD and TH1 that comes nearest to a wanted rate. With Timer 1 in mode 2 as the clock of serial mode 1 or 3, a pair has
 * 2^SMOD * crystal / (384 * (256 - TH1)) bits a second, a fraction. Of all 512 pairs it is the one whose rate is nearest to the
 * wanted one, by their difference; of pairs that are as near, one with SMOD 0, and of these the one with the larger TH1. Found where
 * the difference is at most rate * tolerance / 10000, a fraction too: nothing is rounded. None where no pair is so near. It meets no
 * device. Refusal: 14, before any search, where crystal is not 1 to C51_MAX_CRYSTAL, rate not 1 to C51_MAX_RATE, or tolerance above
 * C51_MAX_TOLERANCE. */
c51_speed_answer c51_speed(uint64_t crystal, uint64_t rate, uint64_t tolerance);

/* ---------------------------------------------------------------- shares of a time slice */

/* Up to C51_MAX_TUNNELS tunnels ask for cycles out of one slice: shares[i] is what the tunnel that wishes for wishes[i] gets. Each gets
 * no more than its wish and at least the smaller of its wish and slice / tunnels, rounded down; what is over then goes round from the
 * first tunnel, each filled to its wish. So the shares add up to the smaller of the slice and all wishes. Each share is a number of
 * cycles that c51_jump takes, and a device that is advanced by its share ends as by so many calls of c51_cycle. It meets no device.
 * wishes points to tunnels numbers and shares to length; neither is ever NULL, even where there are none, and they do not overlap.
 * Refusals: 18 for no tunnel, more than C51_MAX_TUNNELS or another length than tunnels; then 19 for a slice or a wish above
 * C51_MAX_CYCLES; the shares stay as they were. */
uint8_t c51_shares(uint64_t slice, const uint64_t *wishes, size_t tunnels, uint64_t *shares, size_t length);

#ifdef __cplusplus
}
#endif

#endif
