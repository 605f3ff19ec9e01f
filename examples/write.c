/* Writes document 01's sample night from its values, by the static library, and plans what was written: prints how many bytes there are, total and
 * steps, and each node's subject; or the refusal. It is C and C++ alike. */
#include <stddef.h>
#include <stdio.h>

#include "../include/tollburrow.h"

#define COUNT(rows) (sizeof(rows) / sizeof *(rows))

/* The fields of version 4 stand where there was padding: were the sizes, or the fields behind it, not where they were, this would not compile. */
#define STAYS(name, fact) typedef char name[(fact) ? 1 : -1]
STAYS(header_size, sizeof(struct tollburrow_header) == 16);
STAYS(header_steps, offsetof(struct tollburrow_header, steps) == 8 && offsetof(struct tollburrow_header, user) == 12);
STAYS(grant_size, sizeof(struct tollburrow_grant) == 24);
STAYS(grant_sets, offsetof(struct tollburrow_grant, clear) == 8 && offsetof(struct tollburrow_grant, sealed) == 16);

/* attributes, each by its number and as a set of one; relations; subjects; the kinds of node that come up here */
enum { S, B, D, T, C, P, ATTRIBUTES };
enum { S_ = 1 << S, B_ = 1 << B, D_ = 1 << D, T_ = 1 << T, C_ = 1 << C, P_ = 1 << P };
enum { HOSP, INS };
enum { H, I, U, X, Y, Z, SUBJECTS, ANY = 255 };
enum { LEAF = 0, SELECT = 2, JOIN = 5, AGGREGATE = 6 };
/* an unused left, right, x or y */
enum { NONE = 255 };

static const struct tollburrow_relation relations[] = {{H, S_ | B_ | D_ | T_}, {I, C_ | P_}};

/* relation, subject, no days, set in clear, set sealed */
static const struct tollburrow_grant grants[] = {
    {HOSP, H, 0, 0, S_ | B_ | D_ | T_, 0},
    {HOSP, I, 0, 0, B_, S_ | D_ | T_},
    {HOSP, U, 0, 0, S_ | D_ | T_, 0},
    {HOSP, X, 0, 0, D_ | T_, S_},
    {HOSP, Y, 0, 0, B_ | D_ | T_, S_},
    {HOSP, Z, 0, 0, S_ | T_, D_},
    {HOSP, ANY, 0, 0, D_ | T_, 0},
    {INS, H, 0, 0, C_, P_},
    {INS, I, 0, 0, C_ | P_, 0},
    {INS, U, 0, 0, C_ | P_, 0},
    {INS, X, 0, 0, 0, C_ | P_},
    {INS, Y, 0, 0, P_, C_},
    {INS, Z, 0, 0, C_, P_},
    {INS, ANY, 0, 0, 0, P_},
};

/* kind, left, right, x, y, three spare bytes, set, needed in clear, size, and no pairs */
static const struct tollburrow_node nodes[] = {
    {LEAF, NONE, NONE, HOSP, NONE, 0, 0, 0, S_ | D_ | T_, 0, 4, 0, 0},
    {SELECT, 0, NONE, D, NONE, 0, 0, 0, 0, 0, 2, 0, 0},
    {LEAF, NONE, NONE, INS, NONE, 0, 0, 0, C_ | P_, 0, 4, 0, 0},
    {JOIN, 1, 2, S, C, 0, 0, 0, 0, 0, 3, 0, 0},
    {AGGREGATE, 3, NONE, P, NONE, 0, 0, 0, T_, 0, 1, 0, 0},
    {SELECT, 4, NONE, P, NONE, 0, 0, 0, 0, P_, 1, 0, 0},
};

static const uint32_t price_of_step[SUBJECTS] = {3, 3, 10, 1, 2, 1};
static uint32_t step_prices[COUNT(nodes) * SUBJECTS], link_prices[SUBJECTS * SUBJECTS];

/* room for the longest file */
static uint8_t file[13697];
static uint8_t choice[64];
static uint64_t plan[128], keys[128];

/* Every step has the same prices, a leaf none; every link to another subject costs 1. */
static void fill_prices(void) {
  for (unsigned p = 0; p < SUBJECTS; p++) {
    for (unsigned i = 0; i < COUNT(nodes); i++) {
      step_prices[i * SUBJECTS + p] = nodes[i].kind == LEAF ? 0 : price_of_step[p];
    }
    for (unsigned to = 0; to < SUBJECTS; to++) {
      link_prices[p * SUBJECTS + to] = p == to ? 0 : 1;
    }
  }
}

static int refused(uint64_t code) {
  printf("refused %u place %u\n", TOLLBURROW_NUMBER(code), TOLLBURROW_PLACE(code));
  return 1;
}

int main(void) {
  /* version 1, which has neither user nor pairs nor days; 76 steps allowed */
  const struct tollburrow_header header = {1, SUBJECTS, COUNT(relations), ATTRIBUTES, COUNT(nodes), COUNT(grants), 76, 0, 0, 0};
  uint64_t length = 0;
  fill_prices();
  uint64_t code = tollburrow_write(&header, relations, COUNT(relations), grants, COUNT(grants), nodes, COUNT(nodes), 0, 0, step_prices,
                                   COUNT(step_prices), link_prices, COUNT(link_prices), file, sizeof file, &length);
  if (code) {
    return refused(code);
  }
  printf("written %llu\n", (unsigned long long)length);
  uint64_t total = 0;
  uint32_t steps = 0;
  code = tollburrow_cheapest(file, length, choice, 64, plan, 128, keys, 128, &total, &steps);
  if (code) {
    return refused(code);
  }
  printf("total %llu steps %u\n", (unsigned long long)total, steps);
  for (unsigned i = 0; i < COUNT(nodes); i++) {
    printf("node %u subject %u\n", i, choice[i]);
  }
  return 0;
}
