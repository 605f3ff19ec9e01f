/* Plans the file that is named, by the static library: prints total and steps, each node's subject, and why others are out of the steps; or the
 * refusal. It is C and C++ alike. */
#include <stdio.h>

#include "../include/tollburrow.h"

/* one byte more than the longest file, so that a longer one is refused by its length */
static uint8_t file[13698];
static uint8_t choice[64];
static uint64_t plan[128], keys[128];

/* A line for each subject that is out of the step: the table, the condition, and the set as a number in base 16. */
static void others(uint64_t length, uint32_t node, uint32_t subjects) {
  static const char *const tables[] = {"", "left", "right", "result"};
  for (uint32_t subject = 0; subject < subjects; subject++) {
    uint8_t table = 0, condition = 0;
    uint64_t set = 0;
    /* a leaf is refused with 16: it has an owner, and no candidates */
    if (!tollburrow_why(file, length, node, subject, &table, &condition, &set) && table) {
      printf("  not %u: %s %u %llx\n", subject, tables[table], condition, (unsigned long long)set);
    }
  }
}

int main(int count, char **words) {
  FILE *in = count == 2 ? fopen(words[1], "rb") : 0;
  if (!in) {
    printf("usage: plan FILE\n");
    return 2;
  }
  uint64_t length = fread(file, 1, sizeof file, in);
  fclose(in);
  uint64_t total = 0;
  uint32_t steps = 0;
  uint64_t code = tollburrow_cheapest(file, length, choice, 64, plan, 128, keys, 128, &total, &steps);
  if (code) {
    printf("refused %u place %u\n", TOLLBURROW_NUMBER(code), TOLLBURROW_PLACE(code));
    return 1;
  }
  printf("total %llu steps %u\n", (unsigned long long)total, steps);
  /* the file was accepted, so its sixth byte is the number of subjects, and its ninth that of nodes */
  for (unsigned i = 0; i < file[8]; i++) {
    printf("node %u subject %u\n", i, choice[i]);
    others(length, i, file[5]);
  }
  return 0;
}
