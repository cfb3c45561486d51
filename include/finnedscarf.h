/*
 * Finnedscarf: checks a schema table, reads one from DTD text, judges a policy of edits on it, completes the policy, or those of all roles of
 * a show at once, mends it, judges a mend that somebody proposes, carries its marks over when the schema is revised, counts the roles of a month on
 * a sheet, adds two sheets, writes and reads a policy as a listing that people can mail, and edits one mark of a policy without going over it all
 * again. Judging, completing and mending one policy and judging a mend are there as well for one that is kept as two bit maps. The seventeen calls
 * are proved to answer as said here for every input; nothing checks this header against them but tests/store.
 *
 * Build the library with `./build store` and link target/staticlib/libstore.a (x86-64 Linux). For C99 or C++11, or later.
 *
 * What is lent
 *   Each run is a pointer to its first item and the number of its items. With length 0 the pointer may be any, also NULL; else it is never NULL. What
 *   a call may write, which is `numbers`, `out`, `lost`, `out_allowed`, `out_forbidden` and `counts`, and where a mark is edited `marks` and `kept`,
 *   overlaps no other run of the call; all other runs are only read. Nothing else may write to a lent run during the call. A call keeps nothing: no
 *   pointer, no state, no memory that must be freed. The number of a month's roles, `roles`, the format of a listing, `format`, and an edit,
 *   `privilege` and `mark`, are no runs, and sheets are handed over whole.
 *
 * The table
 *   A run of 16-bit words: 8 words of header, three words for each of the E types, then the C entries of the child list.
 *     word 0  format, 1 or 2                   word 4  offset of the type records, 8
 *     word 1  number of words, 8 + 3E + C      word 5  number of child entries C, 0 to 1024
 *     word 2  number of types E, 1 to 256      word 6  offset of the child list, 8 + 3E
 *     word 3  root type, below E               word 7  number of privileges V, 0 to 4096
 *   A type's three words: its kind (0 empty, 1 text, 2 sequence, 3 choice, 4 star), its number of children, and the index of its first
 *   child in the child list. Stretches of children follow one another in type order with no gap. Empty and text have no child, star has
 *   one, sequence and choice have 1 to 16, all different. Types stand in any order: a child's number is below E, no type is on a cycle
 *   (below one of its own children), and every type is reached from the root by going from types to their children.
 *
 * The DTD text
 *   Element declarations as in XML 1.0 (fifth edition, productions 45 to 51), comments and white space, nothing else: at most 65,536 bytes,
 *   names in ASCII of at most 32 bytes, groups at most 16 deep, no ANY and no mixed content with names. A comment takes any byte.
 *   The table of a text: declared types in its order, the first being the root, then made types by where their particle starts, outer
 *   before inner, a mark's empty or star before its operand. A group of one particle, its own mark apart, is that particle. The outermost
 *   operator is the declared type's rule (a bare name: a sequence of one); EMPTY is empty, (#PCDATA) and (#PCDATA)* are text. Each inner
 *   group, `*`, `?` and `+` is a made type: `a?` a choice of a and a made empty type, `a+` a sequence of a and a made star of a.
 *
 * The privileges
 *   Numbered from 0, types in ascending order. Empty and sequence have none. Text has one: change the text.
 *   In format 1, star has two: insert, then delete. A choice of n children has n(n - 1): to replace the child at position i by the kind at
 *   position j is number first + i(n - 1) + j, less 1 if j is greater than i. Positions count from 0.
 *   In format 2 an element can be replaced by another of its own kind too. Star has three: insert, then delete, then replace, which is its
 *   child by another of that kind. A choice of n children has n * n: to replace the child at position i by the kind at position j is number
 *   first + i * n + j, also where j is i.
 *
 * The policy
 *   V marks, one byte each, as below.
 *   Or two bit maps, of allowed and of forbidden privileges, each of V / 8 bytes, rounded up: 512 at most. In both, privilege p has bit p % 8 of
 *   byte p / 8, and bit 0 is the lowest. A privilege is allowed if its bit is set in the allowed map, forbidden if it is set in the forbidden
 *   map, and unset if it is set in neither; it is never set in both. The spare bits, those of the last byte behind the V privileges, are 0.
 *
 * The listing
 *   A policy as text, over the table of a DTD text in format 1 or 2: a line for each set privilege, ascending. A line is `+` if it is allowed or `-`
 *   if it is forbidden, the name of the type, and the edit, with single blanks between all parts and a newline (byte 10) behind the last. The edit
 *   is `text` at a text; `insert` or `delete` and the child's name at a star; `replace` and two names at a choice, of the kind at position i and of
 *   the kind at position j; and in format 2 `replace` and twice the child's name at a star. So there are lines such as
 *     + job insert layer
 *     - range text
 *     + state replace draft held
 *   and in format 2 also `+ job replace layer layer` and `- state replace draft draft`. A declared type has its name in the text, and a made type
 *   `#` and its number in decimal without leading zeros: `#12`. Nothing else stands in a listing: no other blank, no empty line, no carriage return,
 *   no comment. Without a line it is that of the policy in which all is unset. None is over 446,464 bytes, 4,096 lines of 109.
 *
 * The kept entries
 *   What an editor of policies keeps beside the marks, from one edited mark to the next: two 16-bit words for each type t, its entry. Word 2t is the
 *   lowest forbidden privilege below t, and word 2t + 1 how many forbidden privileges are below t, each counted once even if two paths lead to it;
 *   both are 0 if there is none. A privilege is below t if it is one of t, or of a type that is reached from t by going to children.
 *   It begins with marks and entries that are all 0: the policy in which all is unset, and its entries. Those of a policy that is there already are
 *   got by editing its set marks in, from that beginning.
 */
#ifndef FINNEDSCARF_H
#define FINNEDSCARF_H

#include <stddef.h>
#include <stdint.h>

#ifdef __cplusplus
extern "C" {
#endif

/* Marks. */
enum {
    FINNEDSCARF_UNSET = 0,
    FINNEDSCARF_ALLOWED = 1,
    FINNEDSCARF_FORBIDDEN = 2
};

/* What stands in the list of new numbers for a type that is gone. */
enum {
    FINNEDSCARF_GONE = 65535
};

/*
 * The number of an answer. Checks are made in the order of these lines, 20 to 22 before 1, and 19 between 7 and 8; but of 20 and 21 the earlier
 * byte decides, then the lower number. The place is the lowest at which the check fails, 0 where none is named. Where all roles are completed at
 * once, 11 and 16 are numbers of a role and not of the call: they come after 12. Where a month's roles are counted, neither is a number. Over maps
 * 23 and 24 stand in place of 11. Where marks are carried over, 1 to 9 and 19 are the old table's; those of the new table are raised by 100, to 101
 * to 109 and 119, and come after 11. Where a listing is written or read, 1 is the format's and comes first of all, and of 25 and 26 the earlier line
 * decides. Where a mark is edited, 10 and 11 are the marks', and then once more the edit's.
 */
enum {
    FINNEDSCARF_DONE = 0,             /* done; place: V for a table that is checked or read, the length of a listing that is written, else 0 */
    FINNEDSCARF_GRAMMAR = 20,         /* not DTD text; place: the first byte that cannot stand there, or the length at an early end */
    FINNEDSCARF_LIMIT = 21,           /* ANY, mixed content with names, or a limit passed; place: byte, as said at the call */
    FINNEDSCARF_NAME = 22,            /* a name declared before, or used and never declared; place: its first byte */
    FINNEDSCARF_FORMAT = 1,           /* under 8 words lent, or word 0 is neither 1 nor 2; of a listing: the format is neither 1 nor 2 */
    FINNEDSCARF_LAYOUT = 2,           /* words 1 to 6 are not as above, or the run lent isn't word 1 long */
    FINNEDSCARF_KIND = 3,             /* kind above 4; place: type */
    FINNEDSCARF_COUNT = 4,            /* child count wrong for the kind; place: type */
    FINNEDSCARF_STRETCH = 5,          /* first child is not the running index; place: type, or E if the total isn't C */
    FINNEDSCARF_BOUNDS = 6,           /* child not below E; place: parent */
    FINNEDSCARF_TWICE = 7,            /* the same child twice; place: parent */
    FINNEDSCARF_ON_CYCLE = 19,        /* a type on a cycle; place: type */
    FINNEDSCARF_ORPHAN = 8,           /* a type that is not reached from the root; place: type */
    FINNEDSCARF_TOTAL = 9,            /* V is over 4096 or word 7 is not V */
    FINNEDSCARF_MARKS_LENGTH = 10,    /* marks not V long; of all roles, or of a month's: not V for each; a map not V / 8 bytes long, rounded up; of
                                         an edit: its privilege is not below V */
    FINNEDSCARF_MARK = 11,            /* a mark above 2, also that of an edit; place: privilege */
    FINNEDSCARF_BOTH = 23,            /* a privilege whose bit is set in both maps; place: privilege */
    FINNEDSCARF_SPARE = 24,           /* a spare bit set in either map */
    FINNEDSCARF_NEW_TABLE = 100,      /* no number by itself: what is added to 1 to 9 or 19 if the new table has that fault; place: as there */
    FINNEDSCARF_NUMBERS_LENGTH = 17,  /* the list of new numbers is not as long as the old table has types */
    FINNEDSCARF_NEW_NUMBER = 18,      /* a new number that is neither 65535 nor below the new E, or that is not 65535 and an earlier type has too;
                                         place: old type */
    FINNEDSCARF_LINE = 25,            /* a line of a listing that is not as above, also a last one without its newline; place: its first byte */
    FINNEDSCARF_ORDER = 26,           /* a line of a listing whose privilege is not above that of the line before; place: its first byte */
    FINNEDSCARF_SHORT = 12,           /* result shorter than V, of all roles than V for each, than the table that is read, or than the listing that
                                         is written; a result map shorter than V / 8 bytes, rounded up; of marks carried over: `out` than the new V,
                                         or `lost` than the old V; of sheets: a run of counts than 3 * V; of an edit: `kept` than 2 * E */
    FINNEDSCARF_SHEET_REFUSED = 29,   /* a sheet that is to be added was itself refused: its number is not 0; place: 0 if `sheet` was, else 1 */
    FINNEDSCARF_SUM = 30,             /* a sum that 32 bits do not hold; place: the lowest privilege with such a sum among its three counts, or V if
                                         only numbers of roles have one */
    FINNEDSCARF_PROPOSED_LENGTH = 13, /* proposed marks not V long; a proposed map not V / 8 bytes long, rounded up */
    FINNEDSCARF_PROPOSED_MARK = 14,   /* a proposed mark above 2, or a privilege whose bit is set in both proposed maps; place: privilege; else
                                         a spare bit set in either of these; place: 0 */
    FINNEDSCARF_CHANGE = 15,          /* a change other than from allowed to forbidden; place: privilege */
    FINNEDSCARF_BREACH = 16           /* a breach, which is told, but not of a role; completing: in the policy; judging a mend: in the proposed one */
};

/* The condition that a breach breaks. In format 1 a star has no replace, and for condition 2 i differs from j. */
enum {
    FINNEDSCARF_NONE = 0,          /* no breach */
    FINNEDSCARF_INSERT_DELETE = 1, /* at a star, insert and delete are both allowed, and replace or a privilege below its child is forbidden;
                                      or replace is allowed, and a privilege below its child is forbidden */
    FINNEDSCARF_CHAIN = 2,         /* at a choice, allowed replacements lead from i to j, and replacing i by j is forbidden */
    FINNEDSCARF_CYCLE = 3          /* at a choice, allowed replacements lead from i back to i, and a privilege below it is forbidden */
};

/* What a call answers. All from `condition` on tells the breach, and is 0 where there is none. */
typedef struct {
    size_t number;       /* FINNEDSCARF_DONE, or why the call was refused */
    size_t place;        /* as said at the number */
    size_t count;        /* marks taken away or changed; 0 in a refusal */
    size_t condition;    /* FINNEDSCARF_NONE to FINNEDSCARF_CYCLE */
    size_t type;         /* the type at which it is broken */
    size_t i;            /* position; 0 for condition 1 */
    size_t j;            /* position; 0 for condition 1, and i for condition 3 */
    size_t privilege;    /* the forbidden replacement for condition 2, the star's replace for condition 1 if that is forbidden, else the
                            lowest forbidden privilege below the child */
    size_t forbidden;    /* how many are forbidden there: 1 for condition 2, and for condition 1 if the star's replace is forbidden, else
                            all forbidden privileges below the child, each counted once even if two paths lead to it */
    size_t chain_length; /* how many positions the chain has: 3 to 17 for condition 2, 2 to 17 for condition 3; 0 for condition 1 */
    uint8_t chain[17];   /* the steps of conditions 2 and 3: the fewest allowed replacements from i to j, as positions with both ends, from
                            chain[0], which is i, to chain[chain_length - 1], which is j, each to be replaced by the next; among equally
                            few the lowest position at the first difference; 0 in unused places */
} finnedscarf_outcome;

/*
 * The sheet of a month's roles, but for the counts of the privileges, which are in a run of their own. The five figures are numbers of roles. In a
 * refusal all but the number and the place is 0.
 */
typedef struct {
    size_t number;          /* FINNEDSCARF_DONE, or why the call was refused */
    size_t place;           /* as said at the number */
    uint32_t clean;         /* break no condition */
    uint32_t insert_delete; /* break condition 1 somewhere: at any type, be it the first breach or not; so a role can be in all three of these */
    uint32_t chain;         /* break condition 2 somewhere */
    uint32_t cycle;         /* break condition 3 somewhere */
    uint32_t refused;       /* have a mark above 2; such a role is counted nowhere else */
    uint32_t leader_count;  /* how many leaders there are: three, or V if that is less */
    size_t leaders[3];      /* the privileges that are allowed in most roles: most first, the lower number first among equals; 0 in unused places */
} finnedscarf_sheet;

/* Checks a table: 0 with V as place, or 1 to 9 or 19. */
finnedscarf_outcome finnedscarf_check_table(const uint16_t *words, size_t words_length);

/*
 * Reads DTD text: 0 with V as place and the text's table in `out`, as many words as its word 1 says; or 20 to 22; or the table's own numbers, of
 * which there can be 4, 7, 19, 8 and 9; or 12. 1,800 words hold every table (8 + 3 * 256 + 1024). The place of 21 is ANY's first byte, mixed
 * content's first `|`, a name's 33rd byte, byte 65,536, the parenthesis of a group inside 16 others, or, for over 256 types or 1,024 child
 * entries, the length. A refusal leaves `out` as it was; else its words behind the table are kept. The table is in format 1. With word 0 set
 * to 2 and one added to word 7 for each star and for each child of each choice, it is the same schema in format 2, if V is then at most 4096.
 */
finnedscarf_outcome finnedscarf_read_dtd(const uint8_t *text, size_t text_length, uint16_t *out, size_t out_length);

/*
 * Judges a policy: 0 with the first breach, zeros if it is clean, or 1 to 11 or 19. The first is that of the lowest type; there condition 2
 * comes before 3, and then the lowest i, and then the lowest j.
 */
finnedscarf_outcome finnedscarf_judge_policy(const uint16_t *words, size_t words_length, const uint8_t *marks, size_t marks_length);

/*
 * Completes a policy: 0 with the least fully decided policy that keeps every set mark and is clean in the first V bytes of `out`, or 1 to
 * 12, 16 or 19. A refusal leaves `out` as it was; else its bytes from V on are kept.
 */
finnedscarf_outcome finnedscarf_complete(const uint16_t *words, size_t words_length, const uint8_t *marks, size_t marks_length,
                                         uint8_t *out, size_t out_length);

/*
 * Completes the policies of all roles of a show at once, as many as `numbers` has words; the roles' marks stand one after another in `marks`, V
 * for each. If it is done it answers 0 and nothing else, numbers[r] is the number of role r, and its completed marks are the V bytes of `out`
 * from r * V on. Both are what finnedscarf_complete gives on the role's own marks and those bytes: with 11 or 16 the bytes are kept, and the
 * other roles go on. Of such a role that call tells the place or the breach. Bytes of `out` behind the last role's are kept. The whole call is
 * refused with 1 to 9 or 19 for the table, then with 10 if `marks` is not V bytes for each role, then with 12 if `out` is shorter than that; a
 * refusal leaves `numbers` and `out` as they were. There may be any number of roles, also none; with V 0 each of them is done.
 */
finnedscarf_outcome finnedscarf_complete_roles(const uint16_t *words, size_t words_length, const uint8_t *marks, size_t marks_length,
                                               uint16_t *numbers, size_t numbers_length, uint8_t *out, size_t out_length);

/*
 * Mends a policy: 0 with a clean policy in the first V bytes of `out`, in which `count` marks went from allowed to forbidden and all
 * others are equal, or 1 to 12 or 19. A refusal leaves `out` as it was; else its bytes from V on are kept. The rule, until the policy is clean:
 * for the first breach forbid, if of condition 1, the delete where insert and delete are both allowed, and replace where they are not; else
 * the replacement of i by the lowest k such that it is allowed, and k is j or allowed replacements lead from k to j.
 */
finnedscarf_outcome finnedscarf_mend(const uint16_t *words, size_t words_length, const uint8_t *marks, size_t marks_length,
                                     uint8_t *out, size_t out_length);

/*
 * Judges a mend that somebody proposes: 0 with the number of changed marks as `count` if each mark is equal or went from allowed to
 * forbidden and the proposed policy is clean, or 1 to 11, 13 to 16 or 19.
 */
finnedscarf_outcome finnedscarf_judge_mend(const uint16_t *words, size_t words_length, const uint8_t *marks, size_t marks_length,
                                           const uint8_t *proposed, size_t proposed_length);

/*
 * The same for a policy that is kept as two bit maps, `allowed` and `forbidden`: each call answers what the call on marks answers on those that
 * the maps spell. What is wrong with the maps themselves is told otherwise: 10 if either is not V / 8 bytes long, rounded up, then 23 with the
 * lowest privilege whose bit is set in both, then 24 if a spare bit is set in either. A table's numbers come before these.
 */

/* Judges a policy, as finnedscarf_judge_policy does: 0 with the first breach, zeros if it is clean, or 1 to 10, 19, 23 or 24. */
finnedscarf_outcome finnedscarf_judge_maps(const uint16_t *words, size_t words_length, const uint8_t *allowed, size_t allowed_length,
                                           const uint8_t *forbidden, size_t forbidden_length);

/*
 * Completes a policy, as finnedscarf_complete does: 0 with the two maps of the completed policy in the first V / 8 bytes, rounded up, of
 * `out_allowed` and of `out_forbidden`, or 1 to 10, 12 if either is shorter than that, 16, 19, 23 or 24. Spare bits are written as 0. A refusal
 * leaves both results as they were; else their bytes behind the maps are kept.
 */
finnedscarf_outcome finnedscarf_complete_maps(const uint16_t *words, size_t words_length, const uint8_t *allowed, size_t allowed_length,
                                              const uint8_t *forbidden, size_t forbidden_length, uint8_t *out_allowed,
                                              size_t out_allowed_length, uint8_t *out_forbidden, size_t out_forbidden_length);

/*
 * Mends a policy, by the rule and with the `count` of finnedscarf_mend: 0 with the two maps of the mended policy in `out_allowed` and
 * `out_forbidden`, which are written or kept as in completing, or 1 to 10, 12, 19, 23 or 24.
 */
finnedscarf_outcome finnedscarf_mend_maps(const uint16_t *words, size_t words_length, const uint8_t *allowed, size_t allowed_length,
                                          const uint8_t *forbidden, size_t forbidden_length, uint8_t *out_allowed,
                                          size_t out_allowed_length, uint8_t *out_forbidden, size_t out_forbidden_length);

/*
 * Judges a mend that somebody proposes as two maps, as finnedscarf_judge_mend does: 0 with the number of changed privileges as `count`, or 1 to
 * 10, 13 to 16, 19, 23 or 24. Of the proposed pair, 13 is a wrong length of either map, and 14 has the lowest privilege whose bit is set in
 * both as its place, or else, for a spare bit set in either, 0.
 */
finnedscarf_outcome finnedscarf_judge_mend_maps(const uint16_t *words, size_t words_length, const uint8_t *allowed, size_t allowed_length,
                                                const uint8_t *forbidden, size_t forbidden_length, const uint8_t *proposed_allowed,
                                                size_t proposed_allowed_length, const uint8_t *proposed_forbidden,
                                                size_t proposed_forbidden_length);

/*
 * Carries the marks of a policy over to a revised schema: the old table, a policy over it, the new table, and for each old type its number in the
 * new table, or FINNEDSCARF_GONE; no other number stands there twice. The tables may be in different formats.
 * An edit is of a kind, text, insert, delete or replace, and names types: its own, and the child that is inserted or deleted, or the one that is
 * replaced and then the one that takes its place, which for a star's replace are both the star's child. An old privilege and a new one correspond
 * if their edits are of one kind and each type that the old one names has as its new number the type that the new one names there. So none
 * corresponds to two.
 * Answers 0 and nothing else, with a mark for each new privilege in the first bytes of `out`, as many as the new V: that of the old privilege that
 * corresponds to it, or unset if there is none; and with a byte for each old privilege in the first bytes of `lost`, as many as the old V: 1 if it
 * was set and no new privilege corresponds to it, else 0. Or 1 to 9 or 19 for the old table, 10 or 11 for the old marks, 101 to 109 or 119 for the
 * new table, 17 or 18 for the list, or 12, in this order. A refusal leaves `out` and `lost` as they were; else their bytes behind those are kept.
 */
finnedscarf_outcome finnedscarf_carry_marks(const uint16_t *old_words, size_t old_words_length, const uint8_t *old_marks,
                                            size_t old_marks_length, const uint16_t *new_words, size_t new_words_length,
                                            const uint16_t *new_numbers, size_t new_numbers_length, uint8_t *out, size_t out_length,
                                            uint8_t *lost, size_t lost_length);

/*
 * Counts a month's roles over one table on a sheet: `roles` of them, whose marks stand one after another in `marks`, V for each. If it is done it
 * answers 0 with the sheet, and counts[3 * p], counts[3 * p + 1] and counts[3 * p + 2] are the numbers of roles in which privilege p is allowed,
 * forbidden and unset; their sum is the number of roles that are not refused. A role with a mark above 2 is counted as refused and nowhere else.
 * What `counts` held is not added to; what is behind its first 3 * V numbers is kept. 12,288 are enough for every table. Or 1 to 9 or 19 for the
 * table, then 10 if `marks` is not V bytes for each role, then 12 if `counts` is shorter than 3 * V; a refusal leaves `counts` as it was. There may
 * be any number of roles that 32 bits hold, also none: then all figures and counts are 0, and the leaders are the first privileges. With V 0 each
 * role is clean, and any number of them is counted at once.
 */
finnedscarf_sheet finnedscarf_month_sheet(const uint16_t *words, size_t words_length, uint32_t roles, const uint8_t *marks,
                                          size_t marks_length, uint32_t *counts, size_t counts_length);

/*
 * Adds two sheets over one table, as they come from counting a month's roles in two parts, on one machine or on two: `sheet` with its `counts`, and
 * `more` with its `more_counts`. The sum is the sheet of all these roles counted by one call. If it is done it answers 0 with the summed figures, the
 * first 3 * V numbers of `counts` are raised by those of `more_counts`, what is behind them is kept, and the leaders are those of the summed counts.
 * Of the two sheets only the numbers and the five figures are looked at. Or 1 to 9 or 19 for the table, then 12 if `counts` or `more_counts` is
 * shorter than 3 * V, then 29 if a sheet was itself refused, then 30 if 32 bits do not hold a sum; a refusal leaves `counts` as it was.
 */
finnedscarf_sheet finnedscarf_add_sheets(const uint16_t *words, size_t words_length, finnedscarf_sheet sheet, uint32_t *counts,
                                         size_t counts_length, finnedscarf_sheet more, const uint32_t *more_counts,
                                         size_t more_counts_length);

/*
 * Writes a policy as a listing, over the table of DTD text in format 1 or 2: 0 with the listing's length as place and the listing in the first bytes
 * of `out`. Or 1 if the format is neither; or what finnedscarf_read_dtd answers for the text, with V by the format: 20 to 22, 4, 7, 19, 8 or 9; or 10
 * or 11 for the marks; or 12 if `out` is shorter than the listing, in this order. 446,464 bytes hold every listing. A refusal leaves `out` as it was;
 * else its bytes behind the listing are kept. What is written is read back to the same marks by finnedscarf_read_listing.
 */
finnedscarf_outcome finnedscarf_write_listing(const uint8_t *text, size_t text_length, uint16_t format, const uint8_t *marks,
                                              size_t marks_length, uint8_t *out, size_t out_length);

/*
 * Reads a listing, over the table of DTD text in format 1 or 2: 0 with the policy's marks in the first V bytes of `out`, unset where the listing has
 * no line. Or 1 if the format is neither; or what finnedscarf_read_dtd answers for the text, with V by the format: 20 to 22, 4, 7, 19, 8 or 9; or 25
 * or 26 for the first line at fault; or 12 if `out` is shorter than V, in this order. 4,096 bytes hold every policy. A refusal leaves `out` as it
 * was; else its bytes from V on are kept. The marks that are read are written to the same listing by finnedscarf_write_listing.
 */
finnedscarf_outcome finnedscarf_read_listing(const uint8_t *text, size_t text_length, uint16_t format, const uint8_t *listing,
                                             size_t listing_length, uint8_t *out, size_t out_length);

/*
 * Edits one mark of a policy, and judges it by the kept entries, so that what is forbidden below each type is not looked for anew. If it is done it
 * answers 0 with the first breach, zeros if the policy is clean. marks[privilege] is then `mark`, and the entries of all types that the privilege is
 * below are those of the new marks, whatever `kept` held there; all other marks stay, and all other words of `kept`, also those behind its first
 * 2 * E. 512 words are enough for every table.
 * From marks and entries of 0 on, after any number of calls, done or refused, the entries are those of the marks, and a done call answers what
 * finnedscarf_judge_policy answers on the new marks. From any other run the entries that are written are right too, but the verdict goes by what
 * `kept` then holds: nothing is forbidden below a child if the second word of its entry is 0, and else `privilege` and `forbidden` are the two words
 * of that entry as they stand, be the first the number of a privilege or not. Condition 2, and the star's replace in condition 1, go by the marks
 * alone.
 * Or 1 to 9 or 19 for the table, 10 or 11 for the marks, then 10 if `privilege` is not below V, 11 with it as place if `mark` is above 2, or 12 if
 * `kept` is shorter than 2 * E, in this order. A refusal leaves `marks` and `kept` as they were.
 */
finnedscarf_outcome finnedscarf_edit_mark(const uint16_t *words, size_t words_length, uint8_t *marks, size_t marks_length, uint16_t *kept,
                                          size_t kept_length, size_t privilege, uint8_t mark);

/*
 * The library itself never gets NULL, not even with length 0. So the names above reach the functions below, in a call and where an
 * address is taken: each makes the exported call of its name, and lends the address of an item of its own for an empty run.
 */
#define FINNEDSCARF_LENT(run, none) (run##_length ? run : &none), run##_length

static inline finnedscarf_outcome finnedscarf_check_table_lent(const uint16_t *words, size_t words_length)
{
    uint16_t no_word = 0;
    return finnedscarf_check_table(FINNEDSCARF_LENT(words, no_word));
}

static inline finnedscarf_outcome finnedscarf_read_dtd_lent(const uint8_t *text, size_t text_length, uint16_t *out, size_t out_length)
{
    uint8_t no_byte = 0;
    uint16_t no_word = 0;
    return finnedscarf_read_dtd(FINNEDSCARF_LENT(text, no_byte), FINNEDSCARF_LENT(out, no_word));
}

static inline finnedscarf_outcome finnedscarf_judge_policy_lent(const uint16_t *words, size_t words_length, const uint8_t *marks,
                                                                size_t marks_length)
{
    uint16_t no_word = 0;
    uint8_t no_byte = 0;
    return finnedscarf_judge_policy(FINNEDSCARF_LENT(words, no_word), FINNEDSCARF_LENT(marks, no_byte));
}

static inline finnedscarf_outcome finnedscarf_complete_lent(const uint16_t *words, size_t words_length, const uint8_t *marks,
                                                            size_t marks_length, uint8_t *out, size_t out_length)
{
    uint16_t no_word = 0;
    uint8_t no_byte = 0;
    return finnedscarf_complete(FINNEDSCARF_LENT(words, no_word), FINNEDSCARF_LENT(marks, no_byte), FINNEDSCARF_LENT(out, no_byte));
}

static inline finnedscarf_outcome finnedscarf_complete_roles_lent(const uint16_t *words, size_t words_length, const uint8_t *marks,
                                                                  size_t marks_length, uint16_t *numbers, size_t numbers_length,
                                                                  uint8_t *out, size_t out_length)
{
    uint16_t no_word = 0;
    uint8_t no_byte = 0;
    return finnedscarf_complete_roles(FINNEDSCARF_LENT(words, no_word), FINNEDSCARF_LENT(marks, no_byte),
                                      FINNEDSCARF_LENT(numbers, no_word), FINNEDSCARF_LENT(out, no_byte));
}

static inline finnedscarf_outcome finnedscarf_mend_lent(const uint16_t *words, size_t words_length, const uint8_t *marks,
                                                        size_t marks_length, uint8_t *out, size_t out_length)
{
    uint16_t no_word = 0;
    uint8_t no_byte = 0;
    return finnedscarf_mend(FINNEDSCARF_LENT(words, no_word), FINNEDSCARF_LENT(marks, no_byte), FINNEDSCARF_LENT(out, no_byte));
}

static inline finnedscarf_outcome finnedscarf_judge_mend_lent(const uint16_t *words, size_t words_length, const uint8_t *marks,
                                                              size_t marks_length, const uint8_t *proposed, size_t proposed_length)
{
    uint16_t no_word = 0;
    uint8_t no_byte = 0;
    return finnedscarf_judge_mend(FINNEDSCARF_LENT(words, no_word), FINNEDSCARF_LENT(marks, no_byte), FINNEDSCARF_LENT(proposed, no_byte));
}

static inline finnedscarf_outcome finnedscarf_judge_maps_lent(const uint16_t *words, size_t words_length, const uint8_t *allowed,
                                                              size_t allowed_length, const uint8_t *forbidden, size_t forbidden_length)
{
    uint16_t no_word = 0;
    uint8_t no_byte = 0;
    return finnedscarf_judge_maps(FINNEDSCARF_LENT(words, no_word), FINNEDSCARF_LENT(allowed, no_byte),
                                  FINNEDSCARF_LENT(forbidden, no_byte));
}

static inline finnedscarf_outcome finnedscarf_complete_maps_lent(const uint16_t *words, size_t words_length, const uint8_t *allowed,
                                                                 size_t allowed_length, const uint8_t *forbidden,
                                                                 size_t forbidden_length, uint8_t *out_allowed, size_t out_allowed_length,
                                                                 uint8_t *out_forbidden, size_t out_forbidden_length)
{
    uint16_t no_word = 0;
    uint8_t no_byte = 0;
    return finnedscarf_complete_maps(FINNEDSCARF_LENT(words, no_word), FINNEDSCARF_LENT(allowed, no_byte),
                                     FINNEDSCARF_LENT(forbidden, no_byte), FINNEDSCARF_LENT(out_allowed, no_byte),
                                     FINNEDSCARF_LENT(out_forbidden, no_byte));
}

static inline finnedscarf_outcome finnedscarf_mend_maps_lent(const uint16_t *words, size_t words_length, const uint8_t *allowed,
                                                             size_t allowed_length, const uint8_t *forbidden, size_t forbidden_length,
                                                             uint8_t *out_allowed, size_t out_allowed_length, uint8_t *out_forbidden,
                                                             size_t out_forbidden_length)
{
    uint16_t no_word = 0;
    uint8_t no_byte = 0;
    return finnedscarf_mend_maps(FINNEDSCARF_LENT(words, no_word), FINNEDSCARF_LENT(allowed, no_byte),
                                 FINNEDSCARF_LENT(forbidden, no_byte), FINNEDSCARF_LENT(out_allowed, no_byte),
                                 FINNEDSCARF_LENT(out_forbidden, no_byte));
}

static inline finnedscarf_outcome finnedscarf_judge_mend_maps_lent(const uint16_t *words, size_t words_length, const uint8_t *allowed,
                                                                   size_t allowed_length, const uint8_t *forbidden,
                                                                   size_t forbidden_length, const uint8_t *proposed_allowed,
                                                                   size_t proposed_allowed_length, const uint8_t *proposed_forbidden,
                                                                   size_t proposed_forbidden_length)
{
    uint16_t no_word = 0;
    uint8_t no_byte = 0;
    return finnedscarf_judge_mend_maps(FINNEDSCARF_LENT(words, no_word), FINNEDSCARF_LENT(allowed, no_byte),
                                       FINNEDSCARF_LENT(forbidden, no_byte), FINNEDSCARF_LENT(proposed_allowed, no_byte),
                                       FINNEDSCARF_LENT(proposed_forbidden, no_byte));
}

static inline finnedscarf_outcome finnedscarf_carry_marks_lent(const uint16_t *old_words, size_t old_words_length, const uint8_t *old_marks,
                                                               size_t old_marks_length, const uint16_t *new_words,
                                                               size_t new_words_length, const uint16_t *new_numbers,
                                                               size_t new_numbers_length, uint8_t *out, size_t out_length, uint8_t *lost,
                                                               size_t lost_length)
{
    uint16_t no_word = 0;
    uint8_t no_byte = 0;
    return finnedscarf_carry_marks(FINNEDSCARF_LENT(old_words, no_word), FINNEDSCARF_LENT(old_marks, no_byte),
                                   FINNEDSCARF_LENT(new_words, no_word), FINNEDSCARF_LENT(new_numbers, no_word),
                                   FINNEDSCARF_LENT(out, no_byte), FINNEDSCARF_LENT(lost, no_byte));
}

static inline finnedscarf_sheet finnedscarf_month_sheet_lent(const uint16_t *words, size_t words_length, uint32_t roles,
                                                             const uint8_t *marks, size_t marks_length, uint32_t *counts,
                                                             size_t counts_length)
{
    uint16_t no_word = 0;
    uint8_t no_byte = 0;
    uint32_t no_number = 0;
    return finnedscarf_month_sheet(FINNEDSCARF_LENT(words, no_word), roles, FINNEDSCARF_LENT(marks, no_byte),
                                   FINNEDSCARF_LENT(counts, no_number));
}

static inline finnedscarf_sheet finnedscarf_add_sheets_lent(const uint16_t *words, size_t words_length, finnedscarf_sheet sheet,
                                                            uint32_t *counts, size_t counts_length, finnedscarf_sheet more,
                                                            const uint32_t *more_counts, size_t more_counts_length)
{
    uint16_t no_word = 0;
    uint32_t no_number = 0;
    return finnedscarf_add_sheets(FINNEDSCARF_LENT(words, no_word), sheet, FINNEDSCARF_LENT(counts, no_number), more,
                                  FINNEDSCARF_LENT(more_counts, no_number));
}

static inline finnedscarf_outcome finnedscarf_write_listing_lent(const uint8_t *text, size_t text_length, uint16_t format,
                                                                 const uint8_t *marks, size_t marks_length, uint8_t *out,
                                                                 size_t out_length)
{
    uint8_t no_byte = 0;
    return finnedscarf_write_listing(FINNEDSCARF_LENT(text, no_byte), format, FINNEDSCARF_LENT(marks, no_byte),
                                     FINNEDSCARF_LENT(out, no_byte));
}

static inline finnedscarf_outcome finnedscarf_read_listing_lent(const uint8_t *text, size_t text_length, uint16_t format,
                                                                const uint8_t *listing, size_t listing_length, uint8_t *out,
                                                                size_t out_length)
{
    uint8_t no_byte = 0;
    return finnedscarf_read_listing(FINNEDSCARF_LENT(text, no_byte), format, FINNEDSCARF_LENT(listing, no_byte),
                                    FINNEDSCARF_LENT(out, no_byte));
}

static inline finnedscarf_outcome finnedscarf_edit_mark_lent(const uint16_t *words, size_t words_length, uint8_t *marks,
                                                             size_t marks_length, uint16_t *kept, size_t kept_length, size_t privilege,
                                                             uint8_t mark)
{
    uint16_t no_word = 0;
    uint8_t no_byte = 0;
    return finnedscarf_edit_mark(FINNEDSCARF_LENT(words, no_word), FINNEDSCARF_LENT(marks, no_byte), FINNEDSCARF_LENT(kept, no_word),
                                 privilege, mark);
}

#undef FINNEDSCARF_LENT

#define finnedscarf_check_table finnedscarf_check_table_lent
#define finnedscarf_read_dtd finnedscarf_read_dtd_lent
#define finnedscarf_judge_policy finnedscarf_judge_policy_lent
#define finnedscarf_complete finnedscarf_complete_lent
#define finnedscarf_complete_roles finnedscarf_complete_roles_lent
#define finnedscarf_mend finnedscarf_mend_lent
#define finnedscarf_judge_mend finnedscarf_judge_mend_lent
#define finnedscarf_judge_maps finnedscarf_judge_maps_lent
#define finnedscarf_complete_maps finnedscarf_complete_maps_lent
#define finnedscarf_mend_maps finnedscarf_mend_maps_lent
#define finnedscarf_judge_mend_maps finnedscarf_judge_mend_maps_lent
#define finnedscarf_carry_marks finnedscarf_carry_marks_lent
#define finnedscarf_month_sheet finnedscarf_month_sheet_lent
#define finnedscarf_add_sheets finnedscarf_add_sheets_lent
#define finnedscarf_write_listing finnedscarf_write_listing_lent
#define finnedscarf_read_listing finnedscarf_read_listing_lent
#define finnedscarf_edit_mark finnedscarf_edit_mark_lent

#ifdef __cplusplus
}
#endif

#endif
