/* Quandrilof: an access machine of the NGAC kind (INCITS 565). It knows numbers only.
 *
 * Elements, their containers, what they may do with what, prohibitions and processes lie in memory that the caller lends: a table of
 * QD_TABLE_WORDS words and, beside it, an index of QD_INDEX_BYTES bytes that tells what is within what. Nothing is kept between two calls but
 * what stands in that memory; there is no other state, no heap and no thread.
 *
 * Every call takes every input: memory of any length and with any contents, and any numbers. It answers a refusal number where the rules refuse,
 * the lowest that applies, and a refused call changes no byte that was lent to it. What each call answers and leaves in every lent byte is proved;
 * docs/CONTRACTS.md and docs/THEOREMS.md say what, and by which name.
 *
 * What the proofs assume of a C caller, and nothing checks:
 *   - a pointer and the number behind it are true: so many words, bytes or rows are there, and may be read (or written, where not const);
 *   - what is lent to one call does not overlap, and meanwhile no other thread writes any of it, or reads what is not const;
 *   - words and rows are aligned to 4 bytes. A pointer with the number 0 may be any pointer that is not null.
 *
 * Stack, measured, not proved: have 160 KiB; a smaller stack may end the process.
 */
#ifndef QUANDRILOF_H
#define QUANDRILOF_H

#include <stddef.h>
#include <stdint.h>

#ifdef __cplusplus
extern "C" {
#endif

/* Sizes and limits. */
enum {
    QD_TABLE_WORDS = 8192,       /* words of 32 bits of a table */
    QD_INDEX_BYTES = 32768,      /* bytes of an index */
    QD_IMAGE_MOST = 15115,       /* no table's image has more bytes */
    QD_ROWS_MOST = 1533,         /* no explanation has more rows; a deny has at most two */
    QD_ELEMENT_MOST = 511,       /* elements are 1 to 511 */
    QD_PROCESS_MOST = 255,       /* processes are 1 to 255 */
    QD_ASSIGNMENTS_MOST = 2000,  /* a table holds no more assignments, */
    QD_ASSOCIATIONS_MOST = 1000, /* no more associations, */
    QD_PROHIBITIONS_MOST = 200,  /* and no more prohibitions: one more is refused with 10, in an image with 13 */
    QD_LIST_MOST = 4             /* a prohibition lists at most four inclusions and four exclusions */
};

/* x is within y if x is y or a chain of assignments leads from x to y. The classes of an element are the classes that it is within. A user holds a
 * right over an element if the element has a class and, for each of its classes, some association has the user within its attribute, the right in
 * its set, the element within its target, and its target within that class. A request is granted if of one alternative of the operation each right
 * is held over its argument, and no prohibition restricts it. */

/* Kinds of elements. Objects count as attributes too: "attribute" alone means kinds 2, 3 and 4. What may be assigned to what: a user to a user
 * attribute; a user attribute to a user attribute or a class; an object or object attribute to an object attribute or a class. Every element but a
 * class has at least one assignment. */
enum { QD_USER = 1, QD_USER_ATTRIBUTE = 2, QD_OBJECT = 3, QD_OBJECT_ATTRIBUTE = 4, QD_CLASS = 5 };

/* Operations, with their arguments and the rights that are asked, a set for each argument; behind "or" the second alternative. Arguments that an
 * operation does not use must be 0. */
enum {
    QD_READ = 1,     /* object: {0} */
    QD_WRITE = 2,    /* object: {1} */
    QD_FIND = 3,     /* object: {2} or {0} */
    QD_PRINT = 4,    /* object: {0, 3} */
    QD_MOVE = 5,     /* object, object attribute, object attribute: {4}, {5}, {6} or {1}, {5}, {6} */
    QD_COPY = 6,     /* object, object attribute: {0}, {6} or {3}, {1} */
    QD_ASSIGN = 7,   /* two elements, no class: {7}, {8} */
    QD_DEASSIGN = 8, /* two elements, no class: {9}, {10} */
    QD_ASSOCIATE = 9 /* user attribute, attribute: {11}, {12} */
};

/* Rights, 0 to 31, are the bits of a right set: right r is the bit UINT32_C(1) << r. Those without a name are spare. */
enum {
    QD_RIGHT_READ = 0,
    QD_RIGHT_WRITE = 1,
    QD_RIGHT_FIND = 2,
    QD_RIGHT_PRINT = 3,
    QD_RIGHT_MOVE = 4,
    QD_RIGHT_TAKE_OUT = 5,
    QD_RIGHT_PUT_IN = 6,
    QD_RIGHT_ASSIGN_FROM = 7,
    QD_RIGHT_ASSIGN_TO = 8,
    QD_RIGHT_DEASSIGN_FROM = 9,
    QD_RIGHT_DEASSIGN_TO = 10,
    QD_RIGHT_ASSOC_FROM = 11,
    QD_RIGHT_ASSOC_TO = 12
};

/* Sorts of a prohibition's subject (one user, one process, all users within a user attribute), and its forms. The range of a disjunctive one: what
 * is within some inclusion or outside some exclusion. Of a conjunctive one: what is within every inclusion and outside every exclusion; an empty
 * list limits nothing. No class is in a range. */
enum { QD_BY_USER = 1, QD_BY_PROCESS = 2, QD_BY_USER_ATTRIBUTE = 3 };
enum { QD_DISJUNCTIVE = 0, QD_CONJUNCTIVE = 1 };

/* Refusal numbers. The lowest that applies is given. */
enum {
    QD_NO_TABLE = 1,      /* the table has another length than QD_TABLE_WORDS or, except in load and new, holds no table */
    QD_OUT_OF_RANGE = 2,  /* an id, kind, sort, form or operation out of range; an unused argument not 0; the index has another length */
    QD_ALREADY = 3,       /* the id or relation is already there */
    QD_ABSENT = 4,        /* a named element, process or relation is absent */
    QD_NOT_ALLOWED = 5,   /* a kind or pairing that is not allowed; kind 5 given a container */
    QD_ILL_FORMED = 6,    /* an empty right set; a list too long or not strictly rising; both lists empty */
    QD_CYCLE = 7,         /* the assignment would close a cycle, or child equals container */
    QD_ONLY_ONE = 8,      /* it is the child's only assignment */
    QD_IN_USE = 9,        /* something is assigned to the element, or something names it; a prohibition names the process */
    QD_NO_ROOM = 10,      /* the limit is reached, or the lent rows or output bytes are too few */
    QD_IMAGE_FORM = 11,   /* the image has a first byte and its form is not 1 */
    QD_IMAGE_LENGTH = 12, /* the image is cut, longer than its fields, or has non-zero filling bits */
    QD_IMAGE_FIELD = 13,  /* a count, field or order in the image breaks a rule */
    QD_IMAGE_NAMES = 14   /* the image names something unknown, a wrong kind or pairing, a cycle, or an unassigned element */
};

/* Of qd_is_index, qd_contains, the decisions and the upper half of qd_explain: an answer above QD_REFUSED is a refusal, its number is the answer
 * minus QD_REFUSED. A refusal is not zero: test == 1 or == 2, never for truth. */
enum { QD_REFUSED = 16 };

/* Makes the memory an empty table, whatever it held. Answers 0, or 1 where it has another length than QD_TABLE_WORDS. */
uint32_t qd_new(uint32_t *table, size_t words);

/* Makes the memory the table of the policy that the image spells, whatever it held. Answers 0, or 1, 11, 12, 13 or 14: refused, the memory is as it
 * was. Lend all bytes of the image; one longer than QD_IMAGE_MOST is always refused. */
uint32_t qd_load(uint32_t *table, size_t words, const uint8_t *image, size_t bytes);

/* Writes the image of the table's policy to the front of `out`, and no byte beyond it. Answers refusal * 2^32 + length: the length of the image, or
 * the refusal 1 or 10 (fewer bytes were lent than the image has; none was written). */
uint64_t qd_save(const uint32_t *table, size_t words, uint8_t *out, size_t bytes);

/* Makes the bytes the index of the table, whatever they were. Answers 0, or the refusal 1 or 2. */
uint32_t qd_build_index(const uint32_t *table, size_t words, uint8_t *index, size_t bytes);

/* Whether the bytes are the index of the table. Answers 1 for yes, 0 for no, or QD_REFUSED plus the refusal number 1 or 2: test == 1, never for
 * truth. */
uint32_t qd_is_index(const uint32_t *table, size_t words, const uint8_t *index, size_t bytes);

/* Whether x is y or a chain of assignments leads from x to y. Answers 1 for yes, 0 for no, or QD_REFUSED plus the refusal number 1, 2 or 4: test
 * == 1, never for truth. */
uint32_t qd_contains(const uint32_t *table, size_t words, uint32_t x, uint32_t y);

/* May this process do this operation with these arguments? Answers 0 for deny, 1 or 2 for the alternative that is granted, or QD_REFUSED plus the
 * refusal number 1, 2, 4 or 5: test == 1 or == 2, never for truth. Containment is searched in the table. */
uint32_t qd_decide(const uint32_t *table, size_t words, uint32_t process, uint32_t operation, uint32_t a, uint32_t b, uint32_t c);

/* The same, with containment read from the bits of the index alone: with the table's index the same answer, on every table that new, load and the
 * commands left; over other bytes what the rule says with those bits read as containment. An index of another length is refused with 2. */
uint32_t qd_decide_indexed(const uint32_t *table, size_t words, const uint8_t *index, size_t bytes, uint32_t process, uint32_t operation,
                           uint32_t a, uint32_t b, uint32_t c);

/* A row of an explanation. Of a grant: the granted alternative, the argument (from 1), the right, a class that contains the argument, in `number`,
 * and the lowest association that authorizes the right in that class; `cause` is 0. Of a deny: the alternative, its first argument and right that
 * fail, the cause and a number: cause 1, the right is not held, and the lowest class that lacks it, 0 if there is none; cause 2, 3 or 4, restricted
 * through the user, the process or an attribute, and the lowest such subject; the last three fields are 0. */
struct qd_row {
    uint32_t alternative;
    uint32_t argument;
    uint32_t right;
    uint32_t cause;
    uint32_t number;
    uint32_t attribute;
    uint32_t target;
    uint32_t rights;
};

/* Answers as qd_decide does, and says why: one row for each argument, right and containing class of a grant, all rising; one row for each
 * alternative of a deny. Answers (the decision's answer) * 2^32 + the number of rows. Rows beyond that number keep their contents. Besides the
 * decision's refusals: 10, fewer rows were lent than there are (none was written). */
uint64_t qd_explain(const uint32_t *table, size_t words, uint32_t process, uint32_t operation, uint32_t a, uint32_t b, uint32_t c,
                    struct qd_row *rows, size_t count);

/* The commands. Each takes the table and the index and leaves both up to date; it answers 0 where it was done, else the refusal number, and then
 * leaves every word and byte. It is judged on the numbers, the table and the index's length, never on the index's bytes. Where the index was not the
 * table's, the first five commands make it so; the others leave it as it was. */

/* Creates a policy class. Refusals: 1, 2, 3. */
uint32_t qd_create_class(uint32_t *table, size_t words, uint8_t *index, size_t bytes, uint32_t id);

/* Creates an element of kind 1 to 4 with its first assignment, to the container. Refusals: 1, 2, 3, 4, 5, 10. */
uint32_t qd_create_element(uint32_t *table, size_t words, uint8_t *index, size_t bytes, uint32_t id, uint32_t kind, uint32_t container);

/* Assigns the child to the container. Refusals: 1, 2, 3, 4, 5, 7, 10. */
uint32_t qd_assign(uint32_t *table, size_t words, uint8_t *index, size_t bytes, uint32_t child, uint32_t container);

/* Takes the child's assignment to the container away. Refusals: 1, 2, 4, 5, 8. */
uint32_t qd_deassign(uint32_t *table, size_t words, uint8_t *index, size_t bytes, uint32_t child, uint32_t container);

/* Deletes an element with its own assignments. Refusals: 1, 2, 4, 9. */
uint32_t qd_delete_element(uint32_t *table, size_t words, uint8_t *index, size_t bytes, uint32_t id);

/* Creates an association: it gives users within the user attribute the rights over what is within the target (a user attribute, an object or an
 * object attribute), in the classes that the target is within. A right is held only where it is given in each class of the element. Refusals: 1, 2,
 * 3, 4, 5, 6, 10. */
uint32_t qd_create_association(uint32_t *table, size_t words, uint8_t *index, size_t bytes, uint32_t attribute, uint32_t rights, uint32_t target);

/* Deletes an association, by its exact triple. Refusals: 1, 2, 4, 5, 6. */
uint32_t qd_delete_association(uint32_t *table, size_t words, uint8_t *index, size_t bytes, uint32_t attribute, uint32_t rights, uint32_t target);

/* Creates a prohibition: the subject is denied these rights over the elements of its range, whatever associations give. Each list names attributes,
 * strictly rising. It may be of any length; more than four ids are refused with 6, after 2, 4 and 5 were judged over all of them. An empty list:
 * any pointer but NULL, and 0. Refusals: 1, 2, 3, 4, 5, 6, 10. */
uint32_t qd_create_prohibition(uint32_t *table, size_t words, uint8_t *index, size_t bytes, uint32_t sort, uint32_t subject, uint32_t form,
                               uint32_t rights, const uint32_t *inclusions, size_t inclusion_count, const uint32_t *exclusions,
                               size_t exclusion_count);

/* Deletes a prohibition, by its exact fields. An empty list: any pointer but NULL, and 0. Refusals: 1, 2, 4, 5, 6. */
uint32_t qd_delete_prohibition(uint32_t *table, size_t words, uint8_t *index, size_t bytes, uint32_t sort, uint32_t subject, uint32_t form,
                               uint32_t rights, const uint32_t *inclusions, size_t inclusion_count, const uint32_t *exclusions,
                               size_t exclusion_count);

/* Starts a process of a user. Refusals: 1, 2, 3, 4, 5. */
uint32_t qd_start_process(uint32_t *table, size_t words, uint8_t *index, size_t bytes, uint32_t process, uint32_t user);

/* Ends a process. Refusals: 1, 2, 4, 9. */
uint32_t qd_end_process(uint32_t *table, size_t words, uint8_t *index, size_t bytes, uint32_t process);

#ifdef __cplusplus
}
#endif

#endif
