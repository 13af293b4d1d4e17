/* A module as a program for this machine, for record-modules: a second opinion on what it computes. Standard input: the host's
 * clock, then the card. Standard output: the module's result, then the card.
 */
#include <stdio.h>

#define main module
#include MODULE
#undef main

static u64 clock_given;

u64 clock_of_host(void) { return clock_given; }

int main(void) {
  if (fread(&clock_given, sizeof clock_given, 1, stdin) != 1) return 1;
  if (fread(&card, sizeof card, 1, stdin) != 1) return 2;
  u64 result = module();
  if (fwrite(&result, sizeof result, 1, stdout) != 1) return 3;
  return fwrite(&card, sizeof card, 1, stdout) != 1;
}
