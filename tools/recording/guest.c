/* Runs words under qemu-loongarch64 for record-steps and record-programs: cases on standard input, results on standard output.
 *
 * Code is mapped at 0x10000 and the window at 0x40000000, 64 KiB each; this program is linked far away from both. A case is
 * started by returning from a signal handler: the signal frame gives all 31 registers and pc. It ends in a signal, where
 * the frame has them again: every other word of the code is a BREAK, so an instruction that completes stops one word on.
 *
 * A case can name places of the code where it stops, in the order in which it meets them. A BREAK stands there until it is met;
 * then the word that belongs there is put back, and the case goes on to the next place. It ends at the last one.
 */
typedef unsigned char u8;
typedef unsigned int u32;
typedef unsigned long u64;
typedef long i64;

#define CODE 0x10000ul
#define WINDOW 0x40000000ul
#define AREA 0x10000ul
#define PAD 0x002A7ABCu
#define FRAME_REGISTERS 176 /* where pc and the registers lie in the kernel's struct ucontext */

enum { READ = 63, WRITE = 64, EXIT = 94, SIGALTSTACK = 132, SIGACTION = 134, MMAP = 222, MPROTECT = 226 };

enum { WORDS = 256, PART = 4096, STOPS = 8192 };

/* After it come the words, the n bytes of the window before, and the offsets in the code of the places to stop at. */
struct given {
  u64 pc, r[32];
  u32 code_at, words, at, n, stops, unused;
};

/* After it come the n bytes of the window. */
struct found {
  u64 signal, address, pc, r[32];
  u64 met;    /* how many of the places were met */
  u64 others; /* how often the window changed outside the n bytes at `at` */
};

struct frame { u64 pc, r[32]; };

static struct given given;
static struct found found;
static u32 words[WORDS], stops[STOPS];
static u8 part[PART];
static u32 hidden; /* the word that belongs where the BREAK of a stop stands */
static int running;
static u8 stack[65536] __attribute__((aligned(16)));
static u8 *const window = (u8 *)WINDOW;
static u64 clean[AREA / 8]; /* the window as it is before every case, but for the n bytes that the case gives */

static i64 call(i64 number, i64 a, i64 b, i64 c, i64 d, i64 e) {
  register i64 r11 __asm__("$r11") = number;
  register i64 r4 __asm__("$r4") = a;
  register i64 r5 __asm__("$r5") = b;
  register i64 r6 __asm__("$r6") = c;
  register i64 r7 __asm__("$r7") = d;
  register i64 r8 __asm__("$r8") = e;
  register i64 r9 __asm__("$r9") = 0;
  __asm__ volatile("syscall 0" : "+r"(r4) : "r"(r11), "r"(r5), "r"(r6), "r"(r7), "r"(r8), "r"(r9)
                   : "memory", "$r12", "$r13", "$r14", "$r15", "$r16", "$r17", "$r18", "$r19", "$r20");
  return r4;
}

static void quit(int status) {
  for (;;) call(EXIT, status, 0, 0, 0, 0);
}

/* Whether there was a whole record. */
static int take(u8 *to, u64 size) {
  u64 done = 0;
  while (done < size) {
    i64 got = call(READ, 0, (i64)(to + done), size - done, 0, 0);
    if (got < 0 || (got == 0 && done)) quit(2);
    if (got == 0) return 0;
    done += got;
  }
  return 1;
}

static void give(const u8 *from, u64 size) {
  for (u64 done = 0; done < size;) {
    i64 put = call(WRITE, 1, (i64)(from + done), size - done, 0, 0);
    if (put <= 0) quit(3);
    done += put;
  }
}

/* The same pattern as the scripts' and the programs'. START is the window's place in a program's arena; see machine.py. */
static void make_clean(void) {
  for (u64 i = 0; i < AREA; i++) ((u8 *)clean)[i] = ((i + START) * 31 + 7) % 251 + 1;
}

static void put_words(int pads) {
  for (u32 i = 0; i < given.words; i++) *(u32 *)(CODE + given.code_at + 4 * i) = pads ? PAD : words[i];
}

static u32 *stop_place(void) {
  return (u32 *)(CODE + stops[found.met]);
}

static void put_stop(void) {
  if (found.met == given.stops) return;
  hidden = *stop_place();
  *stop_place() = PAD;
}

/* A store to code must fault; qemu also forgets what it translated. */
static void close_code(void) {
  call(MPROTECT, CODE, AREA, 5, 0, 0);
}

static void open_code(void) {
  call(MPROTECT, CODE, AREA, 7, 0, 0);
}

/* Counts the eights of bytes that are not as before, and puts the window back. */
static u64 restore_window(void) {
  u64 changed = 0, *now = (u64 *)WINDOW;
  for (u64 i = 0; i < AREA / 8; i++) {
    changed += now[i] != clean[i];
    now[i] = clean[i];
  }
  return changed;
}

static void report(int signal, const u64 *info, const struct frame *frame) {
  open_code();
  put_words(1);
  found.signal = signal;
  found.address = info[2];
  found.pc = frame->pc;
  for (int i = 0; i < 32; i++) found.r[i] = frame->r[i];
  for (u32 i = 0; i < given.n; i++) {
    part[i] = window[given.at + i];
    window[given.at + i] = ((u8 *)clean)[given.at + i];
  }
  found.others = restore_window();
  give((u8 *)&found, sizeof found);
  give(part, given.n);
}

static void take_case(void) {
  if (!take((u8 *)&given, sizeof given)) quit(0);
  if (given.words > WORDS || given.n > PART || given.stops > STOPS) quit(4);
  if (given.at > AREA - given.n || given.code_at > AREA - 4 * given.words) quit(4);
  take((u8 *)words, 4 * given.words);
  take(part, given.n);
  take((u8 *)stops, 4 * given.stops);
}

static void start(struct frame *frame) {
  take_case();
  found.met = 0;
  for (u32 i = 0; i < given.n; i++) window[given.at + i] = part[i];
  put_words(0);
  put_stop();
  close_code();
  frame->pc = given.pc;
  for (int i = 1; i < 32; i++) frame->r[i] = given.r[i];
}

/* Whether this is a place to stop at and not the last one. */
static int passed(int signal, const struct frame *frame) {
  if (found.met == given.stops || signal != 5 || frame->pc != (u64)stop_place()) return 0;
  open_code();
  *stop_place() = hidden;
  found.met++;
  put_stop();
  close_code();
  return found.met < given.stops;
}

static void handler(int signal, void *info, void *context) {
  struct frame *frame = (struct frame *)((u8 *)context + FRAME_REGISTERS);
  if (running && passed(signal, frame)) return;
  if (running) report(signal, info, frame);
  running = 1;
  start(frame);
}

void _start(void) {
  const int signals[] = {4, 5, 7, 8, 11, 31}; /* ILL TRAP BUS FPE SEGV SYS */
  u64 alternate[3] = {(u64)stack, 0, sizeof stack};
  u64 action[3] = {(u64)handler, 0x4 | 0x08000000 | 0x40000000, 0}; /* SIGINFO ONSTACK NODEFER */
  if ((u64)call(MMAP, CODE, AREA, 7, 0x32, -1) != CODE) quit(5);
  if ((u64)call(MMAP, WINDOW, AREA, 3, 0x32, -1) != WINDOW) quit(6);
  for (u64 i = 0; i < AREA / 4; i++) ((u32 *)CODE)[i] = PAD;
  make_clean();
  restore_window();
  if (call(SIGALTSTACK, (i64)alternate, 0, 0, 0, 0)) quit(7);
  for (int i = 0; i < 6; i++)
    if (call(SIGACTION, signals[i], (i64)action, 0, 8, 0)) quit(8);
  __asm__ volatile("break 1");
  quit(9);
}
