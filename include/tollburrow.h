/* Tollburrow for C and C++: link crates/tollburrow/out/libtollburrow.a (written by `rt lib` in crates/tollburrow, for x86-64).
 *
 * Every function takes any bytes or values and ends. It returns 0, or the refusal as number * 2^32 + place (the numbers and places of the rules' table). A refusal
 * writes nothing anywhere.
 *
 * What a subject sees, and with it the candidates, the reasons, both choices and refusals 7 and 17, is of the night's day, which a file of version 4 names;
 * before version 4 every grant is in force on every day.
 *
 * Of its caller a function asks this much of the pointers:
 * - A file, an offer, records, pairs, prices or a room that are passed with a length have that many elements there. With a length of 0 any pointer will do, a null
 *   pointer too.
 * - A pointer to a single number (from, length, set, table, condition, total, steps, written) or to a header points to one.
 * - A pointer to records, prices, a header or numbers is aligned as the compiler aligns them.
 * - What a function writes to overlaps nothing else that it is passed: no two rooms or numbers share a byte, nor does one of them share a byte with the
 *   file, the offer, the header, records, pairs or prices. With plan and keys in one room, say, the answer is 0 and the keys have overwritten the plan. */
#ifndef TOLLBURROW_H
#define TOLLBURROW_H

#include <stdint.h>

#ifdef __cplusplus
extern "C" {
#endif

/* The number and the place of a refusal. */
#define TOLLBURROW_NUMBER(code) ((uint32_t)((code) >> 32))
#define TOLLBURROW_PLACE(code) ((uint32_t)(code))

/* The verdict on a file: refusals 1 to 11. */
uint64_t tollburrow_check(const uint8_t *file, uint64_t file_length);

/* Where the grant records lie in the file: from which byte, and how many bytes. Refusals 1 to 11. */
uint64_t tollburrow_grant_records(const uint8_t *file, uint64_t file_length, uint64_t *from, uint64_t *length);

/* The candidates of a node, bit p for subject p: none for a leaf and for a number that no node has. Refusals 1 to 11. */
uint64_t tollburrow_candidates(const uint8_t *file, uint64_t file_length, uint64_t node, uint16_t *set);

/* Why a subject is out of a step. The tables that its subject would take and make are looked at in this order: 1 the left operand's least view (the
 * only operand is the left one), 2 the right one's, 3 the result; in each the conditions in the rules' order: 1 what is visible or implicit in clear
 * is in P, 2 what is so sealed is in P or E, 3 each tied set lies wholly in P or wholly in E. The first that fails is written: the table, the
 * condition, and a set, which is for 1 and 2 the lowest attribute that offends, and for 3 the whole tied set with the lowest first attribute among
 * those that fail. Where none fails the subject is a candidate, and all three numbers are 0. Of the result only condition 3 can be the first to fail.
 * Refusals 1 to 11, then 16 for a node that is no step or a subject that isn't there; the place is the node asked for. */
uint64_t tollburrow_why(const uint8_t *file, uint64_t file_length, uint32_t node, uint32_t subject, uint8_t *table, uint8_t *condition, uint64_t *set);

/* The cheapest choice and its plan. Of the file's n nodes and a attributes it writes: into choice the subject of each node, n bytes; into plan
 * for each node the set that it opens and the set that it seals, 2n numbers; into keys for each attribute the name of its key, or 64, and the set of
 * that key's holders, or 0, 2a numbers; the total; the steps. What lies beyond in each room stays. From version 2 on a file names a user, who takes what the
 * root hands over and opens whatever is sealed: it is one of the holders of those keys, and nothing else shows it. Refusals 1 to 11, 17, 12, 13, 15;
 * 17 is a leaf that holds in clear what the user doesn't see so, the place its node; no file with a user is refused with 12. */
uint64_t tollburrow_cheapest(const uint8_t *file, uint64_t file_length, uint8_t *choice, uint64_t choice_length, uint64_t *plan, uint64_t plan_length,
                             uint64_t *keys, uint64_t keys_length, uint64_t *total, uint32_t *steps);

/* The plan for an offered choice, a subject for each node: plan and keys as above, and the choice's total. Refusals 1 to 11, 17, 14, 15. */
uint64_t tollburrow_offered(const uint8_t *file, uint64_t file_length, const uint8_t *offer, uint64_t offer_length, uint64_t *plan, uint64_t plan_length,
                            uint64_t *keys, uint64_t keys_length, uint64_t *total);

/* The values of a plan file, every field as it stands there. A field that the version doesn't have means nothing: it is not written, and read back as 0,
 * a grant's last day as 65535. These are the user in version 1, in versions 1 and 2 the number of pairs and a node's first and count, and before version 4
 * the night's day and a grant's days. So a user that is handed in with version 1 is dropped without a word: the file names nobody, is never refused with
 * 17, and delivers to nobody; and days that are handed in before version 4 are dropped too: each grant is in force on every day.
 * The fields of version 4, day, first and last, stand where there was padding. So the sizes, 16 and 24 bytes, and the places of the other fields are what they
 * were, and a program compiled without them may go on writing versions 1 to 3. Source text that lists a grant's values without their names has to list the
 * days too. */
struct tollburrow_header {
  uint16_t version;
  uint8_t subjects, relations, attributes, nodes;
  uint16_t grants;
  uint32_t steps;
  uint8_t user, pairs;
  uint16_t day; /* the night's */
};

struct tollburrow_relation {
  uint8_t owner;
  uint64_t set;
};

/* subject 255 is any; in force from the first day to the last, both included, 0 to 65535 where it always is */
struct tollburrow_grant {
  uint8_t relation, subject;
  uint16_t first, last;
  uint64_t clear, sealed;
};

/* kind 9 joins on pairs: count of them, from number first on; in other kinds both are 0 */
struct tollburrow_node {
  uint8_t kind, left, right, x, y, spare1, spare2, spare3;
  uint64_t set, needed;
  uint32_t size;
  uint8_t first, count;
};

/* Writes the file of these values into the room, and how many bytes it has: the records in the file's order, the pairs as their bytes, two for each, the
 * left operand's attribute first, the prices row after row. What lies behind the file in the room stays. Refusals: 2 an unknown version; 4; 3 where
 * relations, grants, nodes, bytes of pairs, step prices or link prices are not as many as the counts say (in versions 1 and 2 there are no pairs); 5 to
 * 11 as reading would refuse the file, number and place; then 15, place 4, for a room that is shorter than the file. What was written is a file that
 * tollburrow_check accepts, with the same values in it. */
uint64_t tollburrow_write(const struct tollburrow_header *header, const struct tollburrow_relation *relations, uint64_t relations_length,
                          const struct tollburrow_grant *grants, uint64_t grants_length, const struct tollburrow_node *nodes, uint64_t nodes_length,
                          const uint8_t *pairs, uint64_t pairs_length, const uint32_t *step_prices, uint64_t step_prices_length,
                          const uint32_t *link_prices, uint64_t link_prices_length, uint8_t *room, uint64_t room_length, uint64_t *written);

#ifdef __cplusplus
}
#endif

#endif
