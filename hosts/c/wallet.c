/* A small wallet server: three accounts in one arena, and fare modules that nobody trusts. Copy what you need.
   Every line it prints is checked; the exit status is 1 where one is not as the example says. */
#include <inttypes.h>
#include <stdarg.h>
#include <stdio.h>
#include <string.h>

#include "qhobuziya.h"

/* A card is what a module finds in its window: four numbers of 64 bits, at these offsets. */
enum { BALANCE = 0, TIME = 8, ZONES = 16, FARE = 24, CARD_LENGTH = 32 };
/* What a module may ask the host: the codes of its SYSCALLs. */
enum { DONE = 0, ASK_TIME = 1, ASK_ZONES = 2 };
/* BUDGET is of one run, TURNS of one journey: a module may also ask without end. */
enum { BUDGET = 1000, TURNS = 8, CODE_MAX = 64, PRICE = 250 };
#define NOW UINT64_C(1767254400)

/* Asks for the time and the zones, writes the journey into the card, and takes the fare from the balance. */
static const uint32_t fare_words[] = {
    0x1480000c, /* lu12i.w  r12, 0x40000    the window's guest address */
    0x002b0001, /* syscall  1               the time, in r4 */
    0x29c02184, /* st.d     r4, r12, 8 */
    0x002b0002, /* syscall  2               the zones, in r4 */
    0x29c04184, /* st.d     r4, r12, 16 */
    0x02c3e805, /* addi.d   r5, r0, 250     the price of a zone */
    0x001d9485, /* mul.d    r5, r4, r5 */
    0x29c06185, /* st.d     r5, r12, 24 */
    0x28c00186, /* ld.d     r6, r12, 0 */
    0x001194c6, /* sub.d    r6, r6, r5 */
    0x29c00186, /* st.d     r6, r12, 0 */
    0x002b0000, /* syscall  0               done */
};

/* Adds up the card's bytes in r4. */
static const uint32_t sum_words[] = {
    0x1480000c, /* lu12i.w  r12, 0x40000 */
    0x02c0800d, /* addi.d   r13, r0, 32     bytes that are left */
    0x2a00018e, /* ld.bu    r14, r12, 0 */
    0x0010b884, /* add.d    r4, r4, r14 */
    0x02c0058c, /* addi.d   r12, r12, 1 */
    0x02fffdad, /* addi.d   r13, r13, -1 */
    0x47fff1bf, /* bnez     r13, -16        back to ld.bu */
    0x002b0000, /* syscall  0 */
};

/* Tries to read the balance of the account behind its own. */
static const uint32_t nosy_words[] = {
    0x1480000c, /* lu12i.w  r12, 0x40000 */
    0x28c08184, /* ld.d     r4, r12, 32     the first byte behind the window */
    0x002b0000, /* syscall  0 */
};

struct module {
    uint8_t code[CODE_MAX];
    size_t length;
};

struct account {
    const char *name;
    size_t offset; /* of its card, in the arena */
    uint64_t zones;
};

static uint8_t arena[101];
static const struct account ayanda = {"Ayanda", 5, 3}, bongani = {"Bongani", 37, 1}, chipo = {"Chipo", 69, 2};
static int status = 0;

/* Prints a line of the story, and says so where it does not hold. */
static void tell(int holds, const char *format, ...) {
    va_list values;
    va_start(values, format);
    if (!holds) status = 1;
    fputs(holds ? "" : "NOT SO: ", stdout);
    vprintf(format, values);
    putchar('\n');
    va_end(values);
}

/* Code is bytes. A server has them from a file; here they are made from words, lowest byte first. */
static struct module load(const uint32_t *words, size_t length) {
    struct module module = {{0}, length};
    for (size_t i = 0; i < length; i++) module.code[i] = (uint8_t)(words[i / 4] >> (8 * (i % 4)));
    return module;
}

static uint64_t number_at(const uint8_t *bytes) {
    uint64_t number = 0;
    for (int i = 7; i >= 0; i--) number = number << 8 | bytes[i];
    return number;
}

static uint64_t on_card(const struct account *who, size_t field) {
    return number_at(arena + who->offset + field);
}

static void top_up(const struct account *who, uint64_t balance) {
    for (int i = 0; i < 8; i++) arena[who->offset + BALANCE + (size_t)i] = (uint8_t)(balance >> (8 * i));
}

/* A session at the first word of its code. */
static struct qhobuziya_session start(void) {
    struct qhobuziya_session session = {0};
    session.pc = QHOBUZIYA_CODE_ADDRESS;
    return session;
}

static struct qhobuziya_reply run(const struct module *module, const struct account *who, struct qhobuziya_session session,
                                  uint64_t budget) {
    return qhobuziya_run(module->code, module->length, arena, sizeof arena, who->offset, CARD_LENGTH, session, budget);
}

static int stopped(const struct qhobuziya_reply *reply, uint64_t ecode, uint64_t subcode, uint64_t carried) {
    return reply->refused == QHOBUZIYA_NOT_REFUSED && reply->ecode == ecode && reply->subcode == subcode && reply->carried == carried;
}

static int done(const struct qhobuziya_reply *reply) {
    return stopped(reply, QHOBUZIYA_STOP_SYSCALL, 0, DONE);
}

/* Runs and answers in turn, as long as the module asks what the host knows. */
static struct qhobuziya_reply serve(const struct module *module, const struct account *who) {
    struct qhobuziya_reply reply = run(module, who, start(), BUDGET);
    for (int turn = 0; turn < TURNS; turn++) {
        int asks_time = stopped(&reply, QHOBUZIYA_STOP_SYSCALL, 0, ASK_TIME);
        if (!asks_time && !stopped(&reply, QHOBUZIYA_STOP_SYSCALL, 0, ASK_ZONES)) break;
        uint64_t value = asks_time ? NOW : who->zones;
        reply = qhobuziya_answer(module->code, module->length, reply.session, value);
        tell(reply.refused == QHOBUZIYA_NOT_REFUSED, "%s: asked for the %s, answered %" PRIu64, who->name, asks_time ? "time" : "zones",
             value);
        if (reply.refused != QHOBUZIYA_NOT_REFUSED) break;
        reply = run(module, who, reply.session, BUDGET);
    }
    return reply;
}

static void journey(const struct account *who) {
    struct module module = load(fare_words, sizeof fare_words);
    uint64_t before = on_card(who, BALANCE), fare = who->zones * PRICE;
    struct qhobuziya_reply reply = serve(&module, who);
    tell(done(&reply) && reply.session.total == 9, "%s: done after %" PRIu64 " steps", who->name, reply.session.total);
    int written = on_card(who, TIME) == NOW && on_card(who, ZONES) == who->zones && on_card(who, FARE) == fare;
    tell(written && on_card(who, BALANCE) == before - fare, "%s: the card has the journey: fare %" PRIu64 ", balance %" PRIu64, who->name,
         on_card(who, FARE), on_card(who, BALANCE));
}

/* The budget is spent in the middle: the session goes into a file, and comes back from it later. Its card stays in the arena. */
static void pause_and_go_on(const struct account *who) {
    struct module module = load(sum_words, sizeof sum_words);
    struct qhobuziya_session session = start();
    uint8_t file[QHOBUZIYA_FILE_LENGTH_NOTED];
    const uint8_t *note = (const uint8_t *)"ticket 000004711"; /* 16 bytes for those who help customers */
    session.noted = 1;
    session.note_low = number_at(note);
    session.note_high = number_at(note + 8);
    struct qhobuziya_reply reply = run(&module, who, session, 50);
    tell(stopped(&reply, QHOBUZIYA_STOP_BUDGET, 0, 0) && reply.steps == 50, "%s: paused after %" PRIu64 " steps", who->name, reply.steps);
    struct qhobuziya_written written = qhobuziya_write(reply.session, file, sizeof file);
    tell(written.refused == QHOBUZIYA_NOT_REFUSED && written.length == 285, "%s: a file of %zu bytes", who->name, written.length);
    struct qhobuziya_reading reading = qhobuziya_read(file, written.length);
    tell(reading.refused == QHOBUZIYA_NOT_REFUSED && memcmp(&reading.session, &reply.session, sizeof reading.session) == 0,
         "%s: read back, the same session with its note", who->name);
    reply = run(&module, who, reading.session, BUDGET);
    uint64_t sum = 0;
    for (size_t i = 0; i < CARD_LENGTH; i++) sum += arena[who->offset + i];
    tell(done(&reply) && reply.session.regs[4] == sum && reply.session.total == 162,
         "%s: gone on, the bytes' sum is %" PRIu64 " after %" PRIu64 " steps", who->name, reply.session.regs[4], reply.session.total);
}

static void look_next_door(const struct account *who) {
    struct module module = load(nosy_words, sizeof nosy_words);
    struct qhobuziya_reply reply = run(&module, who, start(), BUDGET);
    int adem = stopped(&reply, QHOBUZIYA_STOP_ADDRESS, QHOBUZIYA_ADDRESS_DATA, QHOBUZIYA_WINDOW_ADDRESS + CARD_LENGTH);
    tell(adem && reply.session.regs[4] == 0, "%s: stopped at guest address 0x%" PRIx64 ", nothing was read", who->name, reply.carried);
}

/* A card that is not all inside the arena: the call is refused, and nothing has happened. */
static void misplace(void) {
    struct module module = load(fare_words, sizeof fare_words);
    struct account lost = {"Lost", sizeof arena - CARD_LENGTH + 1, 1};
    struct qhobuziya_session session = start();
    struct qhobuziya_reply reply = run(&module, &lost, session, BUDGET);
    tell(reply.refused == QHOBUZIYA_REFUSED_WINDOW_PLACE && memcmp(&reply.session, &session, sizeof session) == 0,
         "%s: refused with %" PRIu64 ", the session is as it came", lost.name, reply.refused);
}

int main(void) {
    uint8_t before[CARD_LENGTH];
    top_up(&ayanda, 5000);
    top_up(&bongani, 1200);
    top_up(&chipo, 800);
    memcpy(before, arena + bongani.offset, CARD_LENGTH);
    journey(&ayanda);
    journey(&chipo);
    pause_and_go_on(&chipo);
    look_next_door(&ayanda);
    misplace();
    tell(memcmp(before, arena + bongani.offset, CARD_LENGTH) == 0, "Bongani: between the two, and the card is as it was");
    return status;
}
