/* Runs a whole module under qemu-loongarch64 for record-modules. Standard input: the lengths of code and window, their bytes, then
 * the host's answer to each service call. Standard output: at each stop the signal, the address, pc, the registers and the 64 KiB
 * from the window's start on.
 *
 * All but the handler is the guest that runs single steps: the maps, filled with BREAKs and a pattern, the signal frame and the system
 * calls. Its own handler is given another name, where it is defined alone, so that its _start uses the one below. A BREAK stands for
 * each SYSCALL of the module, since qemu would make the system call.
 */
static void handler(int signal, void *info, void *context);
#define handler(signal, info, context) handler_of_steps(signal, info, context)
#include STEPS
#undef handler

static struct { u64 code, window; } lengths;
static struct { u64 signal, address, pc, r[32]; } stop;

/* The module, and a fresh session. */
static void begin(struct frame *frame) {
  if (!take((u8 *)&lengths, sizeof lengths)) quit(10);
  if (lengths.code > AREA || lengths.window > AREA) quit(11);
  if (!take((u8 *)CODE, lengths.code) || !take(window, lengths.window)) quit(12);
  call(MPROTECT, CODE, AREA, 5, 0, 0); /* a store to code must fault */
  frame->pc = CODE;
  for (int i = 1; i < 32; i++) frame->r[i] = 0;
}

static void stopped(int signal, const u64 *info, const struct frame *frame) {
  stop.signal = signal;
  stop.address = info[2];
  stop.pc = frame->pc;
  for (int i = 0; i < 32; i++) stop.r[i] = frame->r[i];
  give((u8 *)&stop, sizeof stop);
  give(window, AREA);
}

/* The host's answer: into r4, and on behind the call. */
static void answered(struct frame *frame) {
  u64 value;
  if (!take((u8 *)&value, sizeof value)) quit(0);
  frame->r[4] = value;
  frame->pc += 4;
}

static void handler(int signal, void *info, void *context) {
  struct frame *frame = (struct frame *)((u8 *)context + FRAME_REGISTERS);
  if (running) {
    stopped(signal, info, frame);
    answered(frame);
  } else {
    running = 1;
    begin(frame);
  }
}
