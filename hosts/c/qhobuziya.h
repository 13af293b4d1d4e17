/* Qhobuziya: a LoongArch LA64 emulator for untrusted fare modules. The calls that a C server makes.
   Link libqhobuziya_host.a, and libqhobuziya_decode.a where words are decoded. wallet.c is an example to copy.

   What holds for every call:

   - It takes and returns plain values, and reads and writes only the bytes that it is lent. It allocates nothing, keeps nothing after it
     returns, blocks on nothing and has no state of its own. It always returns.
   - So calls may run at once in different threads, as long as no thread's call writes bytes that another's is lent: give each thread an
     arena of its own.
   - A pointer may be NULL only where its length is 0. A length is that of what can be read there, or written where the pointer is not
     const. Code and arena do not overlap.
   - Every other value of every argument is fine: what does not fit is refused, with one of the numbers below.
   - Numbers in the guest's memory, in code and in files have their lowest byte first. */
#ifndef QHOBUZIYA_H
#define QHOBUZIYA_H

#include <stddef.h>
#include <stdint.h>

#ifdef __cplusplus
extern "C" {
#endif

/* The guest's map. Code is at QHOBUZIYA_CODE_ADDRESS and upward, the window at QHOBUZIYA_WINDOW_ADDRESS and upward. A module's loads and
   stores reach the window only. */
#define QHOBUZIYA_CODE_ADDRESS UINT64_C(0x10000)
#define QHOBUZIYA_WINDOW_ADDRESS UINT64_C(0x40000000)

/* Limits. Each is the greatest value that is accepted. */
#define QHOBUZIYA_CODE_LENGTH_MAX 65536                  /* bytes of code; a multiple of 4 */
#define QHOBUZIYA_WINDOW_LENGTH_MAX 65536                /* bytes of a window */
#define QHOBUZIYA_BUDGET_MAX 1000000                     /* steps of one run */
#define QHOBUZIYA_TOTAL_MAX UINT64_C(0x8000000000000000) /* total plus budget: 2^63 */

/* The length of a paused session's file. */
#define QHOBUZIYA_FILE_LENGTH 268       /* without a note */
#define QHOBUZIYA_FILE_LENGTH_NOTED 285 /* with one, and the length of a buffer that always suffices */

/* Why a call was refused: `refused` of what it returned. 8 to 10 are not used. */
enum {
    QHOBUZIYA_NOT_REFUSED = 0,           /* the call was accepted */
    QHOBUZIYA_REFUSED_CODE_LENGTH = 1,   /* code length over 65,536 or not a multiple of 4 */
    QHOBUZIYA_REFUSED_WINDOW_LENGTH = 2, /* window length over 65,536 */
    QHOBUZIYA_REFUSED_WINDOW_PLACE = 3,  /* window offset plus window length, as whole numbers, exceeds the arena's length */
    QHOBUZIYA_REFUSED_ZERO_REGISTER = 4, /* register 0 of the session given is not zero */
    QHOBUZIYA_REFUSED_BUDGET = 5,        /* budget over 1,000,000 */
    QHOBUZIYA_REFUSED_TOTAL = 6,         /* total plus budget exceeds 2^63, as whole numbers */
    QHOBUZIYA_REFUSED_NO_SYSCALL = 7,    /* answer: the pc is not a multiple of 4 inside code, or the word there is no SYSCALL */
    QHOBUZIYA_REFUSED_FILE_KIND = 11,    /* reading: a kind byte not allowed at that place */
    QHOBUZIYA_REFUSED_FILE_CUT = 12,     /* reading: the file ends where a kind or part of a body is due */
    QHOBUZIYA_REFUSED_FILE_EXTRA = 13,   /* reading: bytes after the end mark */
    QHOBUZIYA_REFUSED_BUFFER_LENGTH = 14 /* writing: the buffer is too short */
};

/* Why a run stopped: `ecode` of a run that was not refused. `carried` is what the stop carries. The instruction that raised has changed
   nothing, pc included, and is not counted. */
enum {
    QHOBUZIYA_STOP_BUDGET = 0,         /* the budget is spent, and no instruction raised; carries 0 */
    QHOBUZIYA_STOP_ADDRESS = 8,        /* an address that is not there; `subcode` says which */
    QHOBUZIYA_STOP_ALIGNMENT = 9,      /* ALE, an access whose address is not a multiple of its width; carries the guest address */
    QHOBUZIYA_STOP_BOUND_CHECK = 10,   /* BCE, an assertion of the module that does not hold; carries 0 */
    QHOBUZIYA_STOP_SYSCALL = 11,       /* the module asks the host for a service; carries the 15-bit code of the SYSCALL */
    QHOBUZIYA_STOP_BREAK = 12,         /* BREAK; carries its 15-bit code */
    QHOBUZIYA_STOP_NO_INSTRUCTION = 13 /* INE, a word that does not exist here; carries the word */
};

/* `subcode` of QHOBUZIYA_STOP_ADDRESS. That of every other stop is 0. */
enum {
    QHOBUZIYA_ADDRESS_FETCH = 0, /* ADEF, a pc that is not a multiple of 4 inside code; carries the pc */
    QHOBUZIYA_ADDRESS_DATA = 1   /* ADEM, an access that is not all inside the window; carries the guest address */
};

/* A session: everything of a module that lasts from call to call, but for the bytes of its window. The server keeps it between calls; a
   call takes it by value and returns the next one. All bytes zero is the fresh session. To start a module, set pc to
   QHOBUZIYA_CODE_ADDRESS in a fresh one. */
struct qhobuziya_session {
    uint64_t regs[32];  /* the general registers r0 to r31; regs[0] is 0, or the call is refused */
    uint64_t pc;        /* the guest address of the next instruction */
    uint64_t total;     /* the steps completed so far, in all runs of this session */
    uint64_t noted;     /* is there a support note of 16 bytes? 0: no, and the next two fields mean nothing; anything else: yes */
    uint64_t note_low;  /* the note's first eight bytes, lowest byte first */
    uint64_t note_high; /* and its last eight */
};
/* An accepted call returns a session whose `noted` is 0 or 1, and where it is 0 the note's words are 0. A refused run or answer returns the
   session that came, byte for byte: also another `noted`, and what stands in the words of an absent note. */

/* What a run and an answer return. */
struct qhobuziya_reply {
    struct qhobuziya_session session; /* the session afterwards */
    uint64_t refused;                 /* 0, or why the call was refused: then all below is 0 */
    uint64_t ecode;                   /* QHOBUZIYA_STOP_...; 0 where no instruction raised */
    uint64_t subcode;                 /* QHOBUZIYA_ADDRESS_... where ecode is QHOBUZIYA_STOP_ADDRESS, else 0 */
    uint64_t carried;                 /* what the stop carries */
    uint64_t steps;                   /* the instructions that completed in this call; `total` has grown by it */
};

/* What a write returns. */
struct qhobuziya_written {
    uint64_t refused; /* 0, or why the call was refused */
    size_t length;    /* the file's length: 268, or 285 with a note; 0 if refused */
};

/* What a read returns. */
struct qhobuziya_reading {
    struct qhobuziya_session session; /* the session that the file holds; the fresh one if refused */
    uint64_t refused;                 /* 0, or why the file was refused */
    size_t offset;                    /* the file's length; if refused, where in the file (see qhobuziya_read) */
};

/* What a word means. The operands are the word's own fields: not sign-extended, not scaled, and 0 where the format has no such field. */
struct qhobuziya_decoded {
    uint64_t family;    /* QHOBUZIYA_FAMILY_...; 0: there is no such instruction, and all else is 0 */
    uint64_t operation; /* the place of the mnemonic in its family's row below, counted from 0 */
    uint64_t rd;        /* bits 4:0; the hint of preld and preldx */
    uint64_t rj;        /* bits 9:5 */
    uint64_t rk;        /* bits 14:10; the lsb of bstrins and bstrpick */
    uint64_t imm;       /* the immediate, offset, shift amount or code; the msb of bstrins and bstrpick. The two parts of a branch's offset
                           are put together: bits 4:0 (beqz, bnez) or 9:0 (b, bl) of the word stand above bits 25:10 */
};

/* The families, and beside each its operations from 0 on. */
enum {
    QHOBUZIYA_FAMILY_NONE = 0,
    QHOBUZIYA_FAMILY_ALU = 1,             /* add.w add.d sub.w sub.d slt sltu and or nor xor andn orn maskeqz masknez */
    QHOBUZIYA_FAMILY_PRODUCT = 2,         /* mul.w mul.d mulh.w mulh.wu mulh.d mulh.du mulw.d.w mulw.d.wu */
    QHOBUZIYA_FAMILY_DIVISION = 3,        /* div.w mod.w div.wu mod.wu div.d mod.d div.du mod.du */
    QHOBUZIYA_FAMILY_SHIFT = 4,           /* sll.w srl.w sra.w rotr.w sll.d srl.d sra.d rotr.d */
    QHOBUZIYA_FAMILY_SHIFT_IMMEDIATE = 5, /* slli.w srli.w srai.w rotri.w slli.d srli.d srai.d rotri.d */
    QHOBUZIYA_FAMILY_IMMEDIATE = 6,       /* addi.w addi.d addu16i.d slti sltui lu52i.d andi ori xori */
    QHOBUZIYA_FAMILY_UPPER = 7,           /* lu12i.w lu32i.d pcaddi pcaddu12i pcaddu18i pcalau12i */
    QHOBUZIYA_FAMILY_ALSL = 8,            /* alsl.w alsl.wu alsl.d */
    QHOBUZIYA_FAMILY_BYTEPICK = 9,        /* bytepick.w bytepick.d */
    QHOBUZIYA_FAMILY_UNARY = 10,          /* ext.w.b ext.w.h clo.w clo.d clz.w clz.d cto.w cto.d ctz.w ctz.d revb.2h revb.4h revb.2w revb.d
                                             revh.2w revh.d bitrev.4b bitrev.8b bitrev.w bitrev.d */
    QHOBUZIYA_FAMILY_FIELD = 11,          /* bstrins.w bstrins.d bstrpick.w bstrpick.d */
    QHOBUZIYA_FAMILY_BRANCH = 12,         /* beq bne blt bge bltu bgeu */
    QHOBUZIYA_FAMILY_ZERO_BRANCH = 13,    /* beqz bnez */
    QHOBUZIYA_FAMILY_JUMP = 14,           /* b bl jirl */
    QHOBUZIYA_FAMILY_LOAD = 15,           /* ld.b ld.h ld.w ld.d ld.bu ld.hu ld.wu */
    QHOBUZIYA_FAMILY_INDEXED_LOAD = 16,   /* ldx.b ldx.h ldx.w ldx.d ldx.bu ldx.hu ldx.wu */
    QHOBUZIYA_FAMILY_STORE = 17,          /* st.b st.h st.w st.d */
    QHOBUZIYA_FAMILY_INDEXED_STORE = 18,  /* stx.b stx.h stx.w stx.d */
    QHOBUZIYA_FAMILY_POINTER = 19,        /* ldptr.w ldptr.d stptr.w stptr.d */
    QHOBUZIYA_FAMILY_PRELOAD = 20,        /* preld preldx */
    QHOBUZIYA_FAMILY_BARRIER = 21,        /* dbar ibar */
    QHOBUZIYA_FAMILY_TRAP = 22,           /* syscall break */
    QHOBUZIYA_FAMILY_ASSERT = 23,         /* asrtle.d asrtgt.d */
    QHOBUZIYA_FAMILY_CONFIG = 24          /* cpucfg */
};

/* Runs a session for at most `budget` steps. The module sees `window_length` bytes of the arena from `window_offset` on, and no other byte
   of it; the window may start at any offset. Only the window's bytes change.

   It tests 1, 2, 3, 4, 5, 6 in this order and is refused with the first that applies; a refused run leaves the arena unchanged. Otherwise
   `refused` is 0 and the run went on until an instruction raised, or the budget was spent. A spent budget is `refused` 0 and `ecode` 0: to
   go on, run the session that came back. Budget 0 is spent at once, before anything is fetched. */
struct qhobuziya_reply qhobuziya_run(const uint8_t *code, size_t code_length, uint8_t *arena, size_t arena_length, size_t window_offset,
                                     size_t window_length, struct qhobuziya_session session, uint64_t budget);

/* Answers a service call: after a run that stopped with QHOBUZIYA_STOP_SYSCALL, it puts `value` in r4 and adds 4 to pc. Then run the
   session that came back. `code` is the code of that run. The reply's ecode, subcode, carried and steps are 0: `refused` alone says whether
   the call was answered. It tests 1, 4, 7 in this order. */
struct qhobuziya_reply qhobuziya_answer(const uint8_t *code, size_t code_length, struct qhobuziya_session session, uint64_t value);

/* Writes a session's file to the front of the buffer. The bytes behind the file stay as they were, and a refused write changes nothing. The
   bytes of the window are not in the file: keep them yourself. It tests 4, then 14.

   The file is, in this order: 0x01 and pc, 8 bytes; 0x02 and r1 to r31, 248 bytes; 0x03 and total, 8 bytes; where there is a note 0x04 and
   its 16 bytes; 0x05. These bytes before the bodies are the kinds. */
struct qhobuziya_written qhobuziya_write(struct qhobuziya_session session, uint8_t *buffer, size_t buffer_length);

/* Reads a session's file. `file_length` is the length of the file itself, not of the buffer it lies in: bytes behind the end are refused.
   It goes from left to right and is refused with the first of 11, 12 and 13 that it meets. `offset` is then that of the kind byte for 11;
   for 12 that of the kind byte whose body is cut, or the file's length where a kind is due; for 13 that of the first extra byte. Every
   value of pc, registers, total and note is accepted: what a run would refuse, the run refuses. */
struct qhobuziya_reading qhobuziya_read(const uint8_t *file, size_t file_length);

/* Says which instruction a word is. It is never refused. Family 0 is given exactly for the words that stop a run with
   QHOBUZIYA_STOP_NO_INSTRUCTION. */
struct qhobuziya_decoded qhobuziya_decode(uint32_t word);

/* The archives were compiled for these sizes. */
#if defined(__cplusplus) && __cplusplus >= 201103L
#define QHOBUZIYA_SIZE(type, size) static_assert(sizeof(struct type) == size, "the archives have another " #type)
#elif defined(__STDC_VERSION__) && __STDC_VERSION__ >= 201112L
#define QHOBUZIYA_SIZE(type, size) _Static_assert(sizeof(struct type) == size, "the archives have another " #type)
#endif
#ifdef QHOBUZIYA_SIZE
QHOBUZIYA_SIZE(qhobuziya_session, 296);
QHOBUZIYA_SIZE(qhobuziya_reply, 336);
QHOBUZIYA_SIZE(qhobuziya_written, 16);
QHOBUZIYA_SIZE(qhobuziya_reading, 312);
QHOBUZIYA_SIZE(qhobuziya_decoded, 48);
#undef QHOBUZIYA_SIZE
#endif

#ifdef __cplusplus
}
#endif
#endif
