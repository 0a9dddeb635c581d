/*
 * Hall changeovers: looking over a book of records, learning its rule sheet,
 * checking the plan of an order, adding a record, converting a book to its other
 * form. The calls keep no state, allocate nothing, need no initialisation and may
 * be made from any number of threads at once.
 *
 * Platform: x86-64, System V calling convention, ELF. Link with libchangeover
 * (archive or shared library); of other libraries it needs memcpy and memset
 * and nothing else.
 *
 * Stack. A thread with a stack of 80 KiB can make every call, one of 32 KiB
 * every call but the three that write a book, which add a record and convert. In
 * these figures is what a call uses (at most some 19 KiB, those three some 64
 * KiB), and what the C library takes of the same stack: for the thread itself
 * (some 4.5 KiB), and for the dynamic linker, which with lazy binding looks a
 * function up when it is first called, however deep in the call that is (some
 * 3 KiB). The rest is to spare. Not in them are the program's thread-local
 * variables, its own functions and signal handlers.
 *
 * Lent memory. Each pointer is lent for the time of the call with its length
 * in bytes; nothing outside is read or written. Inputs are only read; two
 * inputs may overlap or be the same bytes. An output must not overlap an input,
 * so a record is not added in place, and a book not converted in place. Where a
 * length is 0 the pointer may be NULL. Any bytes whatever may be given: every call
 * returns. A length that no memory has, such as -1 of a read that failed, is a
 * wrong length like others.
 *
 * Words. A fact is a relation with an object in each of its places; a state is
 * the set of facts that hold. A step is a move with an object for each of its
 * parameters. A kind may have a parent, a kind of a smaller number: a wagon is
 * a bank. A kind suits where that kind is asked for, or one above it: its
 * parent, its parent's parent, and so on. A bound fact of a move is a relation
 * with one of the move's parameters in each place, whose own kind suits the
 * place; the step's objects, put in for the parameters, make a fact of it. A
 * fact or a step is right if there is such a relation or move, each place or
 * parameter has an object that there is, of a kind that suits, the bytes of
 * unused ones are 0, and no object of a step stands twice; else it is wrong.
 * An order has one plan and 1 to 16 starts, each a state that the hall may be in
 * when the plan begins. MEANING.md says all of this at length, FORMAT.md has the
 * bytes of books, orders and sheets; they are in share/doc/changeover, in the
 * sources in docs. Beside them, in examples, are programs and builder.h, which
 * makes the bytes of books and orders.
 *
 * Steps that did not go. A record may also have a step that was tried and did not
 * go. Its move byte is 128 higher, so 129 or more; its move is the byte less 128
 * (128 is move 0, and 9). The state after it must equal the state before it, else
 * 27; in a short book that is so exactly if the list behind the step is empty.
 * Such steps count in all totals, and a record may have them alone. They teach no
 * need and no effect: 11 and 12 pass them over, and a move of which only such steps
 * are filed is a move never recorded. But a rule list, which says what each move
 * needs and changes, fits such a step only if some need is unmet before it. So no
 * list fits the book if all needs that are learned from it, to hold and not to
 * hold, are met before such a step: 28. Wherever some list fits, plans pass just as
 * if such steps were absent. A plan has none: in an order such a byte is 18.
 *
 * Forms. A book is full or short. In a full book each state lists the facts that
 * hold. In a short one a record's first state does so too, and each later one
 * lists the facts whose value turns: those that hold in it and not in the state
 * before it, and those that hold in that one and no longer. Orders are the same
 * for both. A call that reads both forms is told which one it is given: 0
 * (CHANGEOVER_FULL) for a full book, any other number (CHANGEOVER_SHORT) for a
 * short one. The bytes do not say it, and a book that is read in the wrong form
 * may be good and mean something else. A good book and what it converts to have
 * the same rule sheet, and the same answers and end sheets of learning and
 * checking, but for the places of 11 and 28, which are offsets in the book that was
 * read.
 *
 * Sequence. The records of a good book make a good book in any sequence, behind
 * the same bytes and each as often. It has the same rule sheet, and the same
 * answers and end sheets of learning and checking, but for the places of 11 and 28.
 *
 * The answer packs three numbers:
 *   bits 48 to 63   number: 0 success, else the refusal below
 *   bits 32 to 47   by 19 and 20 the position of the start, from 1; else 0
 *   bits  0 to 31   place
 * A refusal leaves all lent memory as it was. The answer is the first row of the
 * table that is met. The table is in the order of the tests: 21, 24, 27, 28, 23 and
 * 22 stand where they are tested. "Rows 1 to 10" are all that stand above 11 in it,
 * 21, 24 and 27 among them, and "rows 1 to 13" all above 14, 28 too. A row is tested
 * for all that it speaks of, in file order, before the next row is, except that
 *   - the records are read one after the other, each to its end: its head (6, then
 *     24), its objects (7), a state (8), a step (9, then 10), the state after it (8),
 *     27 of the step, the next step and so on, and bytes left in it (6); then come
 *     bytes left after the last record (6)
 *   - the starts are tried one after the other, each by 19, then by 20
 *
 *   No.  met when                                          place
 *    0   success                                           see each call
 *    1   book: length under 16 or over 60,000              0
 *    2   book header: a count over its limit               0
 *    3   book header: an offset or the end wrong, or       0
 *        records past the end
 *   21   kind: its parent is no smaller number (0: none)   the parent's offset
 *    4   relation: count, kind or unused byte wrong        its offset
 *    5   move: likewise                                    its offset
 *    6   record head cut, over a limit, length under 4 or  the record's offset
 *        past the end
 *   24   record: its step count is 0                       the record's offset
 *    7   object cut, or no such kind                       its offset
 *    8   state: count cut or over 256 (facts that turn:    offset of the count
 *        over 512); fact cut, wrong or out of order        or the fact
 *    8   facts that turn: over 256 facts would be left     offset of the count
 *    9   step cut; no such move; an object wrong in number its offset
 *        or kind; an unused byte not 0
 *   10   step with an object twice                         its offset
 *   27   step that did not go: the state after it is not   its offset
 *        the state before it
 *    6   bytes left in a record                            the record's offset
 *    6   bytes left after the last record                  first such byte
 *   11   a changed fact is no bound fact of its step       first such step's
 *                                                          offset
 *   12   a bound fact was changed to one value, and after  smallest such move
 *        another step of the move has the other
 *   28   step that did not go: all learned needs were met  first such step's
 *        before it                                         offset
 *   23   the converted book would pass 60,000 bytes        0
 *   13   a lent output of wrong length                     0
 *   14   order header: length under 16, or objects, goal   0
 *        entries or steps over their limit
 *   22   order header: no start, or over 16 of them        0
 *   14   order header: an offset or the length wrong       0
 *   15   order object: no such kind                        offset in the order
 *   16   start: count cut or over 256; fact cut, wrong or  offset in the order
 *        out of order; bytes left between the last start   of the count, the
 *        and the goal                                      fact, the first such
 *                                                          byte
 *   17   goal entry: first byte over 1; fact wrong or out  offset in the order
 *        of order
 *   18   plan step wrong, as 9 or 10                       offset in the order
 *   19   a learned need is unmet in the plan               step number from 1
 *   20   a goal entry is false at the end                  entry number from 1
 *
 * Cut means reaching past the end of the record, for a record's head past that
 * of the book, for a start past the offset of the goal; the place is where the
 * thing begins, which may be that end. Of two facts out of order the second is
 * named, of a goal entry its first byte. The second row of 8 is tested when all
 * facts of a list have turned: how many hold on the way does not matter.
 */
#ifndef CHANGEOVER_H
#define CHANGEOVER_H

#include <stddef.h>
#include <stdint.h>

/*
 * The version of this interface. Another patch changes nothing that a caller
 * sees but faults mended. Another minor version adds: calls, functions, numbers
 * of refusals, and books that were refused before; what was not refused has the
 * same answer, what was refused may have another number.
 * Another major version may change the parameters of a call, the bytes of
 * books, orders and sheets, which of them are good, and what the bits of an
 * answer mean; the shared library's soname has its number.
 */
#define CHANGEOVER_VERSION_MAJOR 4
#define CHANGEOVER_VERSION_MINOR 2
#define CHANGEOVER_VERSION_PATCH 0
#define CHANGEOVER_VERSION_STRING "4.2.0"
/* One number that grows with the version, for #if. */
#define CHANGEOVER_VERSION                                                    \
    (CHANGEOVER_VERSION_MAJOR * 1000000 + CHANGEOVER_VERSION_MINOR * 1000 +   \
     CHANGEOVER_VERSION_PATCH)

#ifdef __cplusplus
extern "C" {
#endif

/*
 * The table's numbers by name. A switch over them without a default is warned of
 * one left out (-Wswitch, in -Wall); handle numbers of a later minor version
 * behind it.
 */
#if defined(__cplusplus) && __cplusplus >= 201103L
enum changeover_numbers : unsigned {
#else
enum changeover_numbers {
#endif
    CHANGEOVER_SUCCESS = 0,
    CHANGEOVER_BOOK_LENGTH = 1,
    CHANGEOVER_HEADER_COUNT = 2,
    CHANGEOVER_HEADER_OFFSET = 3,
    CHANGEOVER_RELATION = 4,
    CHANGEOVER_MOVE = 5,
    CHANGEOVER_RECORD = 6,
    CHANGEOVER_OBJECT = 7,
    CHANGEOVER_STATE = 8,
    CHANGEOVER_STEP = 9,
    CHANGEOVER_OBJECT_TWICE = 10,
    CHANGEOVER_UNBOUND_CHANGE = 11,
    CHANGEOVER_CONFLICT = 12,
    CHANGEOVER_OUTPUT_LENGTH = 13,
    CHANGEOVER_ORDER_HEADER = 14,
    CHANGEOVER_ORDER_OBJECT = 15,
    CHANGEOVER_START = 16,
    CHANGEOVER_GOAL_ENTRY = 17,
    CHANGEOVER_PLAN_STEP = 18,
    CHANGEOVER_NEED_UNMET = 19,
    CHANGEOVER_GOAL_MISSED = 20,
    CHANGEOVER_PARENT = 21,
    CHANGEOVER_START_COUNT = 22,
    CHANGEOVER_CONVERTED_LENGTH = 23,
    CHANGEOVER_NO_STEPS = 24,
    CHANGEOVER_STATES_DIFFER = 27,
    CHANGEOVER_ALL_NEEDS_MET = 28
};

/* What a call is told of its book; any number but 0 says that it is short. */
enum changeover_form { CHANGEOVER_FULL = 0, CHANGEOVER_SHORT = 1 };

/*
 * Lengths in bytes, and the limits of moves and starts. No good order is longer
 * than CHANGEOVER_ORDER_MAX; the calls take longer ones, and refuse them.
 */
enum changeover_lengths {
    CHANGEOVER_BOOK_MIN = 16,
    CHANGEOVER_BOOK_MAX = 60000,
    CHANGEOVER_MOVES_MAX = 32,
    CHANGEOVER_SET_LEN = 32,
    CHANGEOVER_RULES_LEN = 128,
    CHANGEOVER_SHEET_MAX = 4096,
    CHANGEOVER_STARTS_MAX = 16,
    CHANGEOVER_ORDER_MAX = 12928,
    CHANGEOVER_END_LEN = 512,
    CHANGEOVER_MESSAGE_MAX = 256
};

/* Bytes of stack for a thread that neither adds nor converts, one that adds, one that converts. */
enum changeover_stack {
    CHANGEOVER_STACK = 32 * 1024,
    CHANGEOVER_STACK_ADD = 80 * 1024,
    CHANGEOVER_STACK_CONVERT = 80 * 1024
};

/* The four sets of a move's 128 bytes in a rule sheet, in their order. */
enum changeover_set {
    CHANGEOVER_NEEDED_TO_HOLD = 0,
    CHANGEOVER_NEEDED_NOT_TO_HOLD = 1,
    CHANGEOVER_ADDED = 2,
    CHANGEOVER_REMOVED = 3
};

/*
 * Looks a book over: rows 1 to 10. Writes nothing.
 * Success: the place is the count of all steps in the book's records.
 */
uint64_t changeover_look_over(const uint8_t *book, size_t book_len, uint32_t form);

/*
 * Learns the rule sheet of a book: rows 1 to 13, but for 23. The sheet must be
 * exactly 128 bytes for each move of the book, else 13; changeover_sheet_len
 * tells how many that is. On success every byte of the sheet is written, and the
 * place is the count of all steps in the book's records.
 */
uint64_t changeover_learn(const uint8_t *book, size_t book_len, uint32_t form, uint8_t *sheet,
                          size_t sheet_len);

/*
 * Checks the plan of an order by what the book's records show: all rows but 23.
 * The book is learned anew; no rule sheet is asked for. The plan passes exactly
 * if it would pass from each start of the order alone. Else 19 or 20 with its
 * place is what the first start, in file order, that fails would give alone, and
 * changeover_position tells which start that is.
 * The end sheet must be exactly 512 bytes, else 13, however many starts there
 * are. On success (the plan passes) the place is the plan's step count. If the
 * order has one start, every byte of the end sheet is then written, its bits
 * being the facts that hold after the last step; if it has more, the end sheet
 * stays as it was.
 */
uint64_t changeover_check(const uint8_t *book, size_t book_len, uint32_t form,
                          const uint8_t *order, size_t order_len, uint8_t *end, size_t end_len);

/*
 * Adds a record, which is in the book's form: the old book is looked over (rows 1
 * to 10), then the old book with the record's bytes behind it, record count and
 * end renewed; the places of the second looking over are in the new book. A new
 * length over 60,000 is 1, a 65th record 2, and a record without steps is 24 at
 * book_len. Then 13 if the output is shorter than the new length, which is
 * book_len + record_len. On success the new book is written to the front of the
 * output, the bytes beyond it stay, and the place is the new length. The old book
 * is not changed. Whether the new book learns (11, 12, 28) is left to
 * changeover_learn.
 */
uint64_t changeover_add(const uint8_t *book, size_t book_len, uint32_t form,
                        const uint8_t *record, size_t record_len, uint8_t *out, size_t out_len);

/*
 * changeover_to_short converts a full book to a short one, changeover_to_full a
 * short book to a full one. The book is looked over (rows 1 to 10), then 23, then
 * 13 if the output is shorter than the converted book; CHANGEOVER_BOOK_MAX bytes
 * are enough for any. On success the converted book is written to the front of
 * the output, the bytes beyond it stay, and the place is its length. It is good
 * in its form, and converted back it is the old book, byte by byte. Steps keep
 * their bytes, those that did not go their 128. The old book is not changed. Whether
 * it learns (11, 12, 28) is left to changeover_learn. The short book is the longer
 * one if more facts turn with its steps than hold after them.
 */
uint64_t changeover_to_short(const uint8_t *book, size_t book_len, uint8_t *out, size_t out_len);
uint64_t changeover_to_full(const uint8_t *book, size_t book_len, uint8_t *out, size_t out_len);

static inline enum changeover_numbers changeover_number(uint64_t answer)
{
    return (enum changeover_numbers)(answer >> 48);
}

static inline uint32_t changeover_place(uint64_t answer)
{
    return (uint32_t)(answer & 0xffffffffu);
}

/* By 19 and 20 the position, from 1, of the start from which the plan fails; else 0. */
static inline unsigned changeover_position(uint64_t answer)
{
    return (unsigned)(answer >> 32 & 0xffffu);
}

/* 1 for success, 0 for a refusal. */
static inline int changeover_ok(uint64_t answer)
{
    return changeover_number(answer) == CHANGEOVER_SUCCESS;
}

/* What a number means, in words without place and position; for messages. */
static inline const char *changeover_words(enum changeover_numbers number)
{
    switch (number) {
    case CHANGEOVER_SUCCESS:
        return "success";
    case CHANGEOVER_BOOK_LENGTH:
        return "book length under 16 or over 60,000";
    case CHANGEOVER_HEADER_COUNT:
        return "book header: count over its limit";
    case CHANGEOVER_HEADER_OFFSET:
        return "book header: offset wrong, or records past the end";
    case CHANGEOVER_RELATION:
        return "relation: count, kind or unused byte wrong";
    case CHANGEOVER_MOVE:
        return "move: count, kind or unused byte wrong";
    case CHANGEOVER_RECORD:
        return "record: head cut, over a limit or of wrong length, or bytes left over";
    case CHANGEOVER_OBJECT:
        return "object cut, or of no such kind";
    case CHANGEOVER_STATE:
        return "state: count cut or over its limit, fact cut, wrong or out of order, "
               "or over 256 facts left";
    case CHANGEOVER_STEP:
        return "step cut, of no such move, or with an object or unused byte wrong";
    case CHANGEOVER_OBJECT_TWICE:
        return "step with an object twice";
    case CHANGEOVER_UNBOUND_CHANGE:
        return "a changed fact is no bound fact of its step; the book may be of the other form";
    case CHANGEOVER_CONFLICT:
        return "a bound fact was changed to one value, and after another step has the other";
    case CHANGEOVER_OUTPUT_LENGTH:
        return "lent output of wrong length";
    case CHANGEOVER_ORDER_HEADER:
        return "order header: length, count or offset wrong";
    case CHANGEOVER_ORDER_OBJECT:
        return "order object of no such kind";
    case CHANGEOVER_START:
        return "start: count cut or over 256, fact cut, wrong or out of order, or bytes left over";
    case CHANGEOVER_GOAL_ENTRY:
        return "goal entry: first byte over 1, or fact wrong or out of order";
    case CHANGEOVER_PLAN_STEP:
        return "plan step wrong, or with an object twice";
    case CHANGEOVER_NEED_UNMET:
        return "a learned need is unmet in the plan";
    case CHANGEOVER_GOAL_MISSED:
        return "a goal entry is false at the end";
    case CHANGEOVER_PARENT:
        return "a kind's parent is not smaller than the kind";
    case CHANGEOVER_START_COUNT:
        return "order header: no start, or over 16 of them";
    case CHANGEOVER_CONVERTED_LENGTH:
        return "the converted book would pass 60,000 bytes";
    case CHANGEOVER_NO_STEPS:
        return "record without steps";
    case CHANGEOVER_STATES_DIFFER:
        return "a step did not go, and the state after it is not the state before it; "
               "the book may be of the other form";
    case CHANGEOVER_ALL_NEEDS_MET:
        return "a step did not go, though all learned needs were met before it";
    }
    return "no such number";
}

/*
 * What the place of a number is, a # standing for the place; empty where that is
 * always 0. Names that end in an underscore are for this header alone.
 */
static inline const char *changeover_place_words_(enum changeover_numbers number)
{
    switch (number) {
    case CHANGEOVER_SUCCESS:
        return ", #";
    case CHANGEOVER_BOOK_LENGTH:
    case CHANGEOVER_HEADER_COUNT:
    case CHANGEOVER_HEADER_OFFSET:
    case CHANGEOVER_OUTPUT_LENGTH:
    case CHANGEOVER_ORDER_HEADER:
    case CHANGEOVER_START_COUNT:
    case CHANGEOVER_CONVERTED_LENGTH:
        return "";
    case CHANGEOVER_PARENT:
    case CHANGEOVER_RELATION:
    case CHANGEOVER_MOVE:
    case CHANGEOVER_RECORD:
    case CHANGEOVER_NO_STEPS:
    case CHANGEOVER_OBJECT:
    case CHANGEOVER_STATE:
    case CHANGEOVER_STEP:
    case CHANGEOVER_OBJECT_TWICE:
    case CHANGEOVER_STATES_DIFFER:
    case CHANGEOVER_UNBOUND_CHANGE:
    case CHANGEOVER_ALL_NEEDS_MET:
        return ", offset # in the book";
    case CHANGEOVER_CONFLICT:
        return ", move #";
    case CHANGEOVER_ORDER_OBJECT:
    case CHANGEOVER_START:
    case CHANGEOVER_GOAL_ENTRY:
    case CHANGEOVER_PLAN_STEP:
        return ", offset # in the order";
    case CHANGEOVER_NEED_UNMET:
        return ", step #";
    case CHANGEOVER_GOAL_MISSED:
        return ", goal entry #";
    }
    return ", place #";
}

/*
 * Puts a text into a message that has so many bytes already (at), the value for a
 * #. What would leave no byte for the closing 0 is counted and not written. Returns
 * how many bytes the message has then.
 */
static inline size_t changeover_put_(char *buffer, size_t length, size_t at, const char *text,
                                     uint32_t value)
{
    for (; *text != '\0'; text++) {
        uint32_t unit = 1; /* of the digit that is put; any other byte is put once */

        while (*text == '#' && value / unit >= 10)
            unit *= 10;
        for (; unit != 0; unit /= 10) {
            if (at + 1 < length)
                buffer[at] = *text == '#' ? (char)('0' + value / unit % 10) : *text;
            at++;
        }
    }
    return at;
}

/*
 * Writes an answer as a text for messages: the number, the place as what it is,
 * by 19 and 20 the start, and the words of the number:
 *   refused 19, step 2, start 1: a learned need is unmet in the plan
 *   refused 20, goal entry 4, start 3: a goal entry is false at the end
 *   refused 7, offset 34 in the book: object cut, or of no such kind
 *   refused 15, offset 16 in the order: order object of no such kind
 *   refused 13: lent output of wrong length
 *   success, 58
 * A place that is always 0 is left out. The answer does not say which call gave
 * it: so on success the place stands alone, and each call says what it counts;
 * and where a record was added, the book is the new one. The place of a number
 * that this header does not have is called "place".
 * As snprintf does it, this writes at most length bytes, the last of them 0, and
 * returns how long the whole text is without that 0; if this is not less than
 * length, the text was cut. CHANGEOVER_MESSAGE_MAX bytes are enough for every
 * answer. If length is 0, nothing is written, and the buffer may be NULL.
 */
static inline size_t changeover_message(uint64_t answer, char *buffer, size_t length)
{
    enum changeover_numbers number = changeover_number(answer);
    const char *words = changeover_words(number);
    const char *place = changeover_place_words_(number);
    const char *front = changeover_ok(answer) ? words : "refused #";
    size_t at = changeover_put_(buffer, length, 0, front, (uint32_t)number);

    at = changeover_put_(buffer, length, at, place, changeover_place(answer));
    if (changeover_position(answer) != 0)
        at = changeover_put_(buffer, length, at, ", start #", changeover_position(answer));
    if (!changeover_ok(answer)) {
        at = changeover_put_(buffer, length, at, ": ", 0);
        at = changeover_put_(buffer, length, at, words, 0);
    }
    if (length != 0)
        buffer[at < length ? at : length - 1] = '\0';
    return at;
}

/*
 * The length of the sheet that changeover_learn asks for: 128 times the move
 * count, which is bytes 4 and 5 of the book, in either form. 0 if the book has
 * too few bytes for one, or has over 32 moves; it is refused then, whatever the
 * sheet. Nothing else is tested. The length is never over CHANGEOVER_SHEET_MAX.
 */
static inline size_t changeover_sheet_len(const uint8_t *book, size_t book_len)
{
    size_t moves;

    if (book_len < CHANGEOVER_BOOK_MIN)
        return 0;
    moves = (size_t)book[4] << 8 | book[5];
    return moves > CHANGEOVER_MOVES_MAX ? 0 : moves * CHANGEOVER_RULES_LEN;
}

/*
 * Whether a set of a move has a bound fact, 1 or 0. All numbers count from 1,
 * the two parameters being 0 where unused. They must be in the book's range.
 */
static inline int changeover_in_rules(const uint8_t *sheet, unsigned move, enum changeover_set set,
                                      unsigned relation, unsigned first, unsigned second)
{
    size_t n = 16 * (size_t)(relation - 1) + 4 * (size_t)(first ? first - 1 : 0) +
               (size_t)(second ? second - 1 : 0);
    size_t at = CHANGEOVER_RULES_LEN * (size_t)(move - 1) + CHANGEOVER_SET_LEN * (size_t)set;

    return sheet[at + n / 8] >> (n % 8) & 1;
}

/*
 * Whether a fact holds at the plan's end, 1 or 0, by the end sheet of an order
 * with one start. All numbers count from 1, the two objects being 0 where
 * unused. They must be in the hall's range.
 */
static inline int changeover_in_end(const uint8_t *end, unsigned relation, unsigned first,
                                    unsigned second)
{
    size_t n = 256 * (size_t)(relation - 1) + 16 * (size_t)(first ? first - 1 : 0) +
               (size_t)(second ? second - 1 : 0);

    return end[n / 8] >> (n % 8) & 1;
}

#ifdef __cplusplus
}
#endif

#endif
