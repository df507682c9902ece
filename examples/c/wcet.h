/* Records for the analyser, written in place in C. docs/FORMATS.md says what each kind of record means.
 *
 *     WCET_LOOP(turns);                    first in the body of a loop: from one entering of the loop to the next,
 *                                          its body runs at most so often
 *     value = WCET_LOAD(a[i], a);          reads a[i]; all its bytes lie in the array a
 *     WCET_STORE(a[i], a, value);          writes a[i]; all its bytes lie in the array a
 *     value = WCET_CALL(f, argument, g, h);   calls f, which is one of g and h (one to eight functions of one word)
 *     value = WCET_CALL0(f, g, h);         the same with functions that take nothing
 *
 * The compiler may copy code. Then a record would stand beside one copy alone, or land in another loop and bound that one.
 * So each macro labels its instruction with a name of the file's own, numbered by __COUNTER__: a second copy defines
 * the name a second time, and the assembler ends with "symbol `.Lwcet_0' is already defined". The flags of the Makefile
 * keep the compiler from copying.
 */
#ifndef WCET_H
#define WCET_H

#define WCET_TEXT_(words) #words
#define WCET_TEXT(words) WCET_TEXT_(words)

/* The instruction that follows is number n of this file. */
#define WCET_LABEL(n) ".Lwcet_" n ":\n\t"

/* A record at number n. */
#define WCET_RECORD(n, kind, x, y)                 \
    ".pushsection .wcet, \"\", @progbits\n\t"      \
    ".word " kind ", .Lwcet_" n ", " x ", " y "\n\t" \
    ".popsection\n\t"

/* Instructions that the assembler leaves where they stand. */
#define WCET_KEPT(instructions) ".set push\n\t.set noreorder\n\t" instructions ".set pop\n\t"

/* The header of a loop that tests at its head is visited once more than its body, so the record has one more. */
#define WCET_LOOP(turns) WCET_LOOP_(WCET_TEXT(__COUNTER__), turns)
#define WCET_LOOP_(n, turns)                                                          \
    do {                                                                              \
        _Static_assert(WCET_IS_CONSTANT(turns), "WCET_LOOP: the number of turns is not a constant"); \
        _Static_assert(WCET_WHOLE(turns) >= 0 && WCET_WHOLE(turns) < 0xFFFFFFFF &&    \
                       WCET_WHOLE(turns) == WCET_CONSTANT(turns),                     \
                       "WCET_LOOP: the number of turns is not a whole one from 0 to 4294967294"); \
        __asm__ volatile(WCET_KEPT(WCET_LABEL(n) "nop\n\t") WCET_RECORD(n, "1", "%0", "0") \
                         : : "i"((unsigned)WCET_WHOLE(turns) + 1));                   \
    } while (0)

/* Whether an expression is a constant: only then is the middle operand a null pointer, and the type of all int *. */
#define WCET_IS_CONSTANT(number) (sizeof(*(1 ? (void *)((long)(number) * 0L) : (int *)0)) == sizeof(int))

/* A constant itself, and 0 for all others, which have a message of their own; and without what is behind its point. */
#define WCET_CONSTANT(number) __builtin_choose_expr(WCET_IS_CONSTANT(number), (number), 0)
#define WCET_WHOLE(number) ((long long)WCET_CONSTANT(number))

/* Whether a type has a sign; the array's first byte and the one behind its last. */
#define WCET_SIGNED(place) ((__typeof__(place))-1 < (__typeof__(place))1)
#define WCET_BYTES(array) "i"(array), "i"((char *)(array) + sizeof(array))

/* Whether something is an array: a pointer has the type of the address of its first item. */
#define WCET_IS_ARRAY(array) !WCET_ALIKE(__typeof__(array), __typeof__(&(array)[0]))

/* A load has a slot of one instruction on MIPS I. */
#define WCET_LOAD(place, array) WCET_LOAD_(WCET_TEXT(__COUNTER__), place, array)
#define WCET_LOAD_(n, place, array)                                                   \
    ({                                                                                \
        _Static_assert(WCET_IS_ARRAY(array), "WCET_LOAD: a pointer does not tell how many bytes there are"); \
        __typeof__((place) + 0) wcet_value;                                           \
        __asm__ volatile(WCET_KEPT(WCET_LABEL(n)                                      \
                                   ".if %c2 == 4\n\tlw %0, %1\n\t"                    \
                                   ".elseif %c2 == 2 && %c3\n\tlh %0, %1\n\t"         \
                                   ".elseif %c2 == 2\n\tlhu %0, %1\n\t"               \
                                   ".elseif %c2 == 1 && %c3\n\tlb %0, %1\n\t"         \
                                   ".elseif %c2 == 1\n\tlbu %0, %1\n\t"               \
                                   ".else\n\t.error \"no load of this size\"\n\t.endif\n\t" \
                                   "nop\n\t")                                         \
                         WCET_RECORD(n, "3", "%4", "%5")                              \
                         : "=r"(wcet_value)                                           \
                         : "R"(place), "i"(sizeof(place)), "i"(WCET_SIGNED(place)), WCET_BYTES(array)); \
        wcet_value;                                                                   \
    })

#define WCET_STORE(place, array, value) WCET_STORE_(WCET_TEXT(__COUNTER__), place, array, value)
#define WCET_STORE_(n, place, array, value)                                           \
    do {                                                                              \
        _Static_assert(WCET_IS_ARRAY(array), "WCET_STORE: a pointer does not tell how many bytes there are"); \
        __typeof__(place) wcet_value = (value);                                       \
        __asm__ volatile(WCET_KEPT(WCET_LABEL(n)                                      \
                                   ".if %c2 == 4\n\tsw %1, %0\n\t"                    \
                                   ".elseif %c2 == 2\n\tsh %1, %0\n\t"                \
                                   ".elseif %c2 == 1\n\tsb %1, %0\n\t"                \
                                   ".else\n\t.error \"no store of this size\"\n\t.endif\n\t") \
                         WCET_RECORD(n, "3", "%3", "%4")                              \
                         : "=R"(place)                                                \
                         : "r"(wcet_value), "i"(sizeof(place)), WCET_BYTES(array));   \
    } while (0)

/* An indirect call with one word as its argument and at most one as its result; WCET_CALL0 has no argument. The compiler
 * looks at how many arguments the function takes, and the assertions at their types, since the call itself passes
 * register 4 alone and takes register 2. */
#define WCET_CALL(function, argument, ...)                                            \
    ({                                                                                \
        typedef __typeof__(*(function)) wcet_type;                                    \
        typedef __typeof__((function)(argument)) wcet_result;                         \
        _Static_assert(WCET_TAKES(wcet_type, wcet_result, argument),                  \
                       "WCET_CALL: the parameter must be int, long, void * or of the type of the argument, and one word"); \
        WCET_CALL_(WCET_TEXT(__COUNTER__), WCET_COUNT(__VA_ARGS__), function, (long)(argument), __VA_ARGS__); \
    })
#define WCET_CALL0(function, ...)                                                     \
    ({                                                                                \
        typedef __typeof__(*(function)) wcet_type;                                    \
        typedef __typeof__((function)()) wcet_result;                                 \
        _Static_assert(WCET_ALIKE(wcet_type, wcet_result(void)) && WCET_TELLS(wcet_type, wcet_result), \
                       "WCET_CALL0: the function is not declared to take nothing");   \
        WCET_CALL_(WCET_TEXT(__COUNTER__), WCET_COUNT(__VA_ARGS__), function, 0, __VA_ARGS__); \
    })

/* Whether two types are the same; whether a function of this type tells what it takes, unlike int f(); whether it takes
 * the argument as one word. */
#define WCET_ALIKE(first, second) __builtin_types_compatible_p(first, second)
#define WCET_TELLS(type, result) !WCET_ALIKE(type, result(int, int))
#define WCET_TAKES(type, result, argument)                                            \
    (WCET_TELLS(type, result) &&                                                      \
     (WCET_ALIKE(type, result(int)) || WCET_ALIKE(type, result(unsigned)) ||          \
      WCET_ALIKE(type, result(long)) || WCET_ALIKE(type, result(unsigned long)) ||    \
      WCET_ALIKE(type, result(void *)) || WCET_ALIKE(type, result(const void *)) ||   \
      WCET_ALIKE(type, result(const __typeof__(*WCET_POINTER(argument)) *)) ||        \
      (WCET_ALIKE(type, result(__typeof__(argument))) && WCET_IS_WORD(__typeof__((argument) + 0)))))

/* A pointer to something of a known type itself, and one to characters for all else. */
#define WCET_POINTER(argument)                                                        \
    __builtin_choose_expr(__builtin_classify_type(argument) == __builtin_classify_type((char *)0) && \
                          !WCET_ALIKE(__typeof__((argument) + 0), void *) &&          \
                          !WCET_ALIKE(__typeof__((argument) + 0), const void *),      \
                          (argument), (char *)0)

#define WCET_IS_WORD(type) (sizeof(type) <= 4 && !WCET_ALIKE(type, float))

/* 16 bytes of the stack are the callee's, for its arguments. All registers that a callee may change are told to the
 * compiler. */
#define WCET_CALL_(n, count, function, word, ...)                                     \
    _Static_assert(WCET_IS_WORD(wcet_result), "WCET_CALL: the result is more than one word"); \
    WCET_JOIN(WCET_SAME_, count)(__VA_ARGS__)                                         \
    long wcet_f = (long)(function), wcet_a = word;                                    \
    register long wcet_25 __asm__("$25") = wcet_f;                                    \
    register long wcet_4 __asm__("$4") = wcet_a;                                      \
    register long wcet_2 __asm__("$2");                                               \
    __asm__ volatile(WCET_KEPT("addiu $29, $29, -16\n\t" WCET_LABEL(n)                \
                               "jalr $25\n\tnop\n\t"                                  \
                               "addiu $29, $29, 16\n\t")                              \
                     WCET_JOIN(WCET_GOES_, count)(n)                                  \
                     : "=r"(wcet_2), "+r"(wcet_25), "+r"(wcet_4)                      \
                     : WCET_JOIN(WCET_EACH_, count)(__VA_ARGS__)                      \
                     : "$1", "$3", "$5", "$6", "$7", "$8", "$9", "$10", "$11", "$12", "$13", \
                       "$14", "$15", "$24", "$31", "hi", "lo", "memory");             \
    (wcet_result)wcet_2

/* How many targets there are; a look at the type, a record and the operand of each. */
#define WCET_JOIN_(front, back) front##back
#define WCET_JOIN(front, back) WCET_JOIN_(front, back)
#define WCET_TWELFTH(a, b, c, d, e, f, g, h, i, j, k, l, count, ...) count
#define WCET_COUNT(...) WCET_TWELFTH(__VA_ARGS__, MANY, MANY, MANY, MANY, 8, 7, 6, 5, 4, 3, 2, 1, 0)
#define WCET_SAME_1(a) \
    _Static_assert(WCET_ALIKE(__typeof__(*(a)), wcet_type), "WCET_CALL: a target has another type than the function");
#define WCET_SAME_2(a, ...) WCET_SAME_1(a) WCET_SAME_1(__VA_ARGS__)
#define WCET_SAME_3(a, ...) WCET_SAME_1(a) WCET_SAME_2(__VA_ARGS__)
#define WCET_SAME_4(a, ...) WCET_SAME_1(a) WCET_SAME_3(__VA_ARGS__)
#define WCET_SAME_5(a, ...) WCET_SAME_1(a) WCET_SAME_4(__VA_ARGS__)
#define WCET_SAME_6(a, ...) WCET_SAME_1(a) WCET_SAME_5(__VA_ARGS__)
#define WCET_SAME_7(a, ...) WCET_SAME_1(a) WCET_SAME_6(__VA_ARGS__)
#define WCET_SAME_8(a, ...) WCET_SAME_1(a) WCET_SAME_7(__VA_ARGS__)
#define WCET_SAME_MANY(...) _Static_assert(0, "WCET_CALL: there are more than eight targets");
#define WCET_GOES_MANY(n) ""
#define WCET_EACH_MANY(...) "i"(0)
#define WCET_GOES_1(n) WCET_RECORD(n, "2", "%[wcet_t1]", "0")
#define WCET_GOES_2(n) WCET_GOES_1(n) WCET_RECORD(n, "2", "%[wcet_t2]", "0")
#define WCET_GOES_3(n) WCET_GOES_2(n) WCET_RECORD(n, "2", "%[wcet_t3]", "0")
#define WCET_GOES_4(n) WCET_GOES_3(n) WCET_RECORD(n, "2", "%[wcet_t4]", "0")
#define WCET_GOES_5(n) WCET_GOES_4(n) WCET_RECORD(n, "2", "%[wcet_t5]", "0")
#define WCET_GOES_6(n) WCET_GOES_5(n) WCET_RECORD(n, "2", "%[wcet_t6]", "0")
#define WCET_GOES_7(n) WCET_GOES_6(n) WCET_RECORD(n, "2", "%[wcet_t7]", "0")
#define WCET_GOES_8(n) WCET_GOES_7(n) WCET_RECORD(n, "2", "%[wcet_t8]", "0")
#define WCET_EACH_1(a) [wcet_t1] "i"(a)
#define WCET_EACH_2(a, ...) [wcet_t2] "i"(a), WCET_EACH_1(__VA_ARGS__)
#define WCET_EACH_3(a, ...) [wcet_t3] "i"(a), WCET_EACH_2(__VA_ARGS__)
#define WCET_EACH_4(a, ...) [wcet_t4] "i"(a), WCET_EACH_3(__VA_ARGS__)
#define WCET_EACH_5(a, ...) [wcet_t5] "i"(a), WCET_EACH_4(__VA_ARGS__)
#define WCET_EACH_6(a, ...) [wcet_t6] "i"(a), WCET_EACH_5(__VA_ARGS__)
#define WCET_EACH_7(a, ...) [wcet_t7] "i"(a), WCET_EACH_6(__VA_ARGS__)
#define WCET_EACH_8(a, ...) [wcet_t8] "i"(a), WCET_EACH_7(__VA_ARGS__)

#endif
