/* A small interpreter of Lisp: numbers of floating point, texts, symbols, lists, functions with their environments,
 * tail calls, errors that end one expression, and a garbage collector that looks through the stack. It reads a script
 * of its own and then what comes to stdin, up to the end of input. It is plain C: with a compiler for the host it gives
 * the same output there. */
#include <ctype.h>
#include <math.h>
#include <setjmp.h>
#include <stdarg.h>
#include <stdbool.h>
#include <stdint.h>
#include <stdio.h>
#include <stdlib.h>
#include <string.h>

enum { OBJECTS = 1500, WORD = 64 };

enum kind { FREE, NUMBER, TEXT, SYMBOL, PAIR, BUILTIN, FUNCTION };

struct object;

typedef struct object *(*builtin)(struct object *arguments);

/* A value. The empty list is NULL, and is what is false. */
typedef struct object {
    unsigned char kind;
    bool is_marked;
    bool is_macro; /* of a function: its arguments are not evaluated, its result is */
    bool is_bound; /* of a symbol: it has a global value */
    union {
        double number;
        struct {
            char *text;
            struct object *value; /* of a symbol, the global one */
        } word; /* of a text and of a symbol */
        struct {
            struct object *head;
            struct object *tail;
        } pair;
        builtin call;
        struct {
            struct object *code; /* parameters, then expressions */
            struct object *environment;
        } function;
    } as;
} object;

static object *pool;      /* of all objects */
static object *next_free; /* linked by pair.tail */
static object *symbols;   /* a list */
static int collections;
static const char *source; /* what is read: a text, or stdin where it is NULL */
static int pushed_back = EOF;
static jmp_buf top;
static void *stack_base;

static object *evaluate(object *expression, object *environment);

/* Ends the expression at hand with a message. */
static void fail(const char *format, ...) __attribute__((noreturn, format(printf, 1, 2)));
static void fail(const char *format, ...)
{
    va_list arguments;
    va_start(arguments, format);
    fputs("error: ", stdout);
    vprintf(format, arguments);
    putchar('\n');
    va_end(arguments);
    longjmp(top, 1);
}

/* ---- Objects ---- */

static void mark(object *it)
{
    while (it != NULL && !it->is_marked) {
        it->is_marked = true;
        if (it->kind == PAIR) {
            mark(it->as.pair.head);
            it = it->as.pair.tail;
        } else if (it->kind == FUNCTION) {
            mark(it->as.function.code);
            it = it->as.function.environment;
        } else if (it->kind == SYMBOL) {
            it = it->as.word.value;
        }
    }
}

/* Marks each object that a word between two places may point to. */
static void mark_words(void *from, void *to)
{
    for (uintptr_t *at = from; at < (uintptr_t *)to; at++) {
        uintptr_t place = *at - (uintptr_t)pool;
        if (place < OBJECTS * sizeof(object) && place % sizeof(object) == 0) {
            object *it = pool + place / sizeof(object);
            if (it->kind != FREE) {
                mark(it);
            }
        }
    }
}

static void sweep(void)
{
    next_free = NULL;
    for (object *it = pool; it < pool + OBJECTS; it++) {
        if (!it->is_marked) {
            if (it->kind == TEXT || it->kind == SYMBOL) {
                free(it->as.word.text);
            }
            it->kind = FREE;
            it->as.pair.tail = next_free;
            next_free = it;
        }
        it->is_marked = false;
    }
}

static __attribute__((noinline)) void collect(void)
{
    jmp_buf registers; /* on the stack, so that they are looked through too */
    (void)setjmp(registers);
    collections++;
    mark(symbols);
    mark_words(&registers, stack_base);
    sweep();
}

static object *make(enum kind kind)
{
    if (next_free == NULL) {
        collect();
        if (next_free == NULL) {
            fail("no room for more than %d objects", OBJECTS);
        }
    }
    object *it = next_free;
    next_free = it->as.pair.tail;
    it->kind = (unsigned char)kind;
    it->is_macro = false;
    it->is_bound = false;
    it->as.pair.head = NULL;
    it->as.pair.tail = NULL;
    return it;
}

static object *pair(object *head, object *tail)
{
    object *it = make(PAIR);
    it->as.pair.head = head;
    it->as.pair.tail = tail;
    return it;
}

static object *number(double value)
{
    object *it = make(NUMBER);
    it->as.number = value;
    return it;
}

/* A text or a symbol with `length` bytes of a text. */
static object *text(enum kind kind, const char *from, size_t length)
{
    object *it = make(NUMBER); /* of no text yet */
    char *copy = malloc(length + 1);
    if (copy == NULL) {
        fail("no memory for a text");
    }
    memcpy(copy, from, length);
    copy[length] = 0;
    it->as.word.text = copy;
    it->as.word.value = NULL;
    it->kind = (unsigned char)kind;
    return it;
}

static object *symbol(const char *name)
{
    for (object *it = symbols; it != NULL; it = it->as.pair.tail) {
        if (strcmp(it->as.pair.head->as.word.text, name) == 0) {
            return it->as.pair.head;
        }
    }
    symbols = pair(text(SYMBOL, name, strlen(name)), symbols);
    return symbols->as.pair.head;
}

static object *truth(bool is_true)
{
    return is_true ? symbol("t") : NULL;
}

static object *head(object *it)
{
    if (it == NULL || it->kind != PAIR) {
        fail("no list");
    }
    return it->as.pair.head;
}

static object *tail(object *it)
{
    if (it == NULL || it->kind != PAIR) {
        fail("no list");
    }
    return it->as.pair.tail;
}

static double number_of(object *it)
{
    if (it == NULL || it->kind != NUMBER) {
        fail("no number");
    }
    return it->as.number;
}

/* ---- Reading and writing ---- */

static int next_byte(void)
{
    int byte = pushed_back;
    pushed_back = EOF;
    if (byte != EOF) {
        return byte;
    }
    if (source == NULL) {
        return getchar();
    }
    return *source == 0 ? EOF : (unsigned char)*source++;
}

/* The next byte that is of no space and of no comment. */
static int next_letter(void)
{
    bool is_comment = false;
    for (;;) {
        int byte = next_byte();
        if (byte == EOF || !(isspace(byte) || is_comment || byte == ';')) {
            return byte;
        }
        is_comment = byte != '\n' && (is_comment || byte == ';');
    }
}

static object *read_object(int byte);

static object *read_list(void)
{
    int byte = next_letter();
    if (byte == ')') {
        return NULL;
    }
    if (byte == EOF) {
        fail("a list without an end");
    }
    object *first = read_object(byte);
    return pair(first, read_list());
}

static object *read_text(void)
{
    char letters[WORD];
    size_t length = 0;
    for (int byte = next_byte(); byte != '"'; byte = next_byte()) {
        if (byte == EOF || length == WORD) {
            fail("a text without an end");
        }
        letters[length++] = (char)byte;
    }
    return text(TEXT, letters, length);
}

/* Reads a number or a symbol. */
static object *read_word(int byte)
{
    char letters[WORD];
    size_t length = 0;
    while (byte != EOF && !isspace(byte) && byte != '(' && byte != ')') {
        if (length == WORD - 1) {
            fail("a long word");
        }
        letters[length++] = (char)byte;
        byte = next_byte();
    }
    pushed_back = byte;
    letters[length] = 0;
    char *end;
    double value = strtod(letters, &end);
    return *end == 0 ? number(value) : symbol(letters);
}

/* Reads what begins with a byte. */
static object *read_object(int byte)
{
    switch (byte) {
    case '(':
        return read_list();
    case '"':
        return read_text();
    case '\'': {
        object *quoted = read_object(next_letter());
        return pair(symbol("quote"), pair(quoted, NULL));
    }
    default:
        return read_word(byte);
    }
}

/* Writes a number into an array, and returns its length: an int as one, which is quicker and the same text. */
static int write_number(char *to, size_t room, double value)
{
    if (fabs(value) < 1e9 && value == (int)value) {
        return snprintf(to, room, "%d", (int)value);
    }
    return snprintf(to, room, "%.10g", value);
}

static void write_object(const object *it)
{
    char letters[WORD];
    switch (it == NULL ? PAIR : it->kind) {
    case NUMBER:
        write_number(letters, sizeof letters, it->as.number);
        fputs(letters, stdout);
        break;
    case TEXT:
    case SYMBOL:
        fputs(it->as.word.text, stdout);
        break;
    case PAIR:
        putchar('(');
        for (; it != NULL && it->kind == PAIR; it = it->as.pair.tail) {
            write_object(it->as.pair.head);
            if (it->as.pair.tail != NULL) {
                putchar(' ');
            }
        }
        if (it != NULL) {
            fputs(". ", stdout);
            write_object(it);
        }
        putchar(')');
        break;
    default:
        fputs("#function", stdout);
        break;
    }
}

/* ---- Evaluating ---- */

/* Where the value of a symbol stands: in an environment, a list of pairs, or in the symbol itself. */
static object **place_of(object *name, object *environment)
{
    for (object *it = environment; it != NULL; it = it->as.pair.tail) {
        if (it->as.pair.head->as.pair.head == name) {
            return &it->as.pair.head->as.pair.tail;
        }
    }
    if (!name->is_bound) {
        fail("no variable %s", name->as.word.text);
    }
    return &name->as.word.value;
}

static void define(object *name, object *value)
{
    if (name == NULL || name->kind != SYMBOL) {
        fail("no symbol");
    }
    name->is_bound = true;
    name->as.word.value = value;
}

static object *evaluate_each(object *expressions, object *environment)
{
    if (expressions == NULL) {
        return NULL;
    }
    object *first = evaluate(head(expressions), environment);
    return pair(first, evaluate_each(tail(expressions), environment));
}

/* An environment with the parameters of a function; a symbol in their list's place takes all arguments. */
static object *bind(object *parameters, object *arguments, object *environment)
{
    while (parameters != NULL && parameters->kind == PAIR) {
        if (arguments == NULL) {
            fail("too few arguments");
        }
        object *it = pair(head(parameters), head(arguments));
        environment = pair(it, environment);
        parameters = tail(parameters);
        arguments = tail(arguments);
    }
    if (parameters != NULL) {
        object *it = pair(parameters, arguments);
        return pair(it, environment);
    }
    if (arguments != NULL) {
        fail("too many arguments");
    }
    return environment;
}

static object *function(object *code, object *environment, bool is_macro)
{
    object *it = make(FUNCTION);
    it->as.function.code = code;
    it->as.function.environment = environment;
    it->is_macro = is_macro;
    return it;
}

/* Evaluates all of some expressions but the last, which it answers. */
static object *all_but_last(object *expressions, object *environment)
{
    while (expressions != NULL && tail(expressions) != NULL) {
        evaluate(head(expressions), environment);
        expressions = tail(expressions);
    }
    return expressions == NULL ? NULL : head(expressions);
}

/* The special forms, and their symbols, which symbols keeps from the collector. */
enum form { QUOTE, LAMBDA, MACRO, DEFINE, SET, IF, BEGIN, FORMS };

static const char *const form_names[FORMS] = {"quote", "lambda", "macro", "define", "set", "if", "begin"};
static object *forms[FORMS];


/* Carries out a special form that ends here, and stores its value. Answers whether it is one. */
static bool special(object *expression, object *environment, object **value)
{
    object *operator = head(expression);
    object *rest = tail(expression);
    if (operator == forms[QUOTE]) {
        *value = head(rest);
    } else if (operator == forms[LAMBDA]) {
        *value = function(rest, environment, false);
    } else if (operator == forms[MACRO]) {
        *value = function(rest, environment, true);
    } else if (operator == forms[DEFINE]) {
        *value = evaluate(head(tail(rest)), environment);
        define(head(rest), *value);
    } else if (operator == forms[SET]) {
        object *name = head(rest);
        if (name == NULL || name->kind != SYMBOL) {
            fail("no symbol");
        }
        *value = evaluate(head(tail(rest)), environment);
        *place_of(name, environment) = *value;
    } else {
        return false;
    }
    return true;
}

/* The expression that an `if` comes to. */
static object *branch(object *rest, object *environment)
{
    object *others = tail(rest);
    if (evaluate(head(rest), environment) != NULL) {
        return head(others);
    }
    return tail(others) == NULL ? NULL : head(tail(others));
}

static object *evaluate(object *expression, object *environment)
{
    for (;;) {
        object *value = NULL;
        if (expression == NULL) {
            return NULL;
        }
        if (expression->kind == SYMBOL) {
            return *place_of(expression, environment);
        }
        if (expression->kind != PAIR) {
            return expression;
        }
        if (special(expression, environment, &value)) {
            return value;
        }
        if (head(expression) == forms[IF]) {
            expression = branch(tail(expression), environment);
            continue;
        }
        if (head(expression) == forms[BEGIN]) {
            expression = all_but_last(tail(expression), environment);
            continue;
        }
        object *operator = evaluate(head(expression), environment);
        if (operator == NULL || (operator->kind != BUILTIN && operator->kind != FUNCTION)) {
            fail("no function");
        }
        object *arguments = operator->is_macro ? tail(expression) : evaluate_each(tail(expression), environment);
        if (operator->kind == BUILTIN) {
            return operator->as.call(arguments);
        }
        object *code = operator->as.function.code;
        object *inner = bind(head(code), arguments, operator->as.function.environment);
        expression = all_but_last(tail(code), inner);
        if (operator->is_macro) {
            expression = evaluate(expression, inner);
        } else {
            environment = inner; /* a tail call: this loop goes on in its place */
        }
    }
}

/* ---- Builtin functions ---- */

static object *add(object *arguments)
{
    double sum = 0;
    for (; arguments != NULL; arguments = tail(arguments)) {
        sum += number_of(head(arguments));
    }
    return number(sum);
}

static object *multiply(object *arguments)
{
    double product = 1;
    for (; arguments != NULL; arguments = tail(arguments)) {
        product *= number_of(head(arguments));
    }
    return number(product);
}

static double first(object *arguments)
{
    return number_of(head(arguments));
}

static double second(object *arguments)
{
    return number_of(head(tail(arguments)));
}

static object *subtract(object *arguments)
{
    return number(tail(arguments) == NULL ? -first(arguments) : first(arguments) - second(arguments));
}

static object *divide(object *arguments)
{
    if (second(arguments) == 0) {
        fail("a division by 0");
    }
    return number(first(arguments) / second(arguments));
}

static object *remainder_of(object *arguments)
{
    return number(fmod(first(arguments), second(arguments)));
}

static object *floor_of(object *arguments)
{
    return number(floor(first(arguments)));
}

static object *is_less(object *arguments)
{
    return truth(first(arguments) < second(arguments));
}

static object *is_same(object *arguments)
{
    object *left = head(arguments);
    object *right = head(tail(arguments));
    if (left == NULL || right == NULL || left->kind != right->kind) {
        return truth(left == right);
    }
    if (left->kind == NUMBER) {
        return truth(left->as.number == right->as.number);
    }
    return truth(left == right || (left->kind == TEXT && strcmp(left->as.word.text, right->as.word.text) == 0));
}

static object *make_pair(object *arguments)
{
    return pair(head(arguments), head(tail(arguments)));
}

static object *head_of(object *arguments)
{
    return head(head(arguments));
}

static object *tail_of(object *arguments)
{
    return tail(head(arguments));
}

static object *is_pair(object *arguments)
{
    return truth(head(arguments) != NULL && head(arguments)->kind == PAIR);
}

static object *list(object *arguments)
{
    return arguments;
}

static object *print(object *arguments)
{
    for (; arguments != NULL; arguments = tail(arguments)) {
        write_object(head(arguments));
        putchar(tail(arguments) == NULL ? '\n' : ' ');
    }
    return NULL;
}

/* The texts of its arguments, one behind the other. */
static object *join(object *arguments)
{
    char letters[WORD];
    size_t length = 0;
    for (; arguments != NULL; arguments = tail(arguments)) {
        object *it = head(arguments);
        int more = -1;
        if (it != NULL && it->kind == NUMBER) {
            more = write_number(letters + length, sizeof letters - length, it->as.number);
        } else if (it != NULL && (it->kind == TEXT || it->kind == SYMBOL)) {
            more = snprintf(letters + length, sizeof letters - length, "%s", it->as.word.text);
        }
        if (more < 0 || (size_t)more >= sizeof letters - length) {
            fail("no text of at most %d bytes", WORD - 1);
        }
        length += (size_t)more;
    }
    return text(TEXT, letters, length);
}

static const struct {
    const char *name;
    builtin call;
} builtins[] = {
    {"+", add},        {"*", multiply},       {"-", subtract},   {"/", divide},     {"mod", remainder_of},
    {"floor", floor_of}, {"<", is_less},      {"=", is_same},    {"cons", make_pair}, {"car", head_of},
    {"cdr", tail_of},  {"pair", is_pair},     {"list", list},    {"print", print},  {"join", join},
};

/* ---- The script ---- */

static const char script[] =
    "(define defun (macro (name parameters body)\n"
    "  (list 'define name (list 'lambda parameters body))))\n"
    "(defun not (x) (if x () 't))\n"
    "; lists\n"
    "(defun map (f l) (if l (cons (f (car l)) (map f (cdr l)))))\n"
    "(defun filter (f l) (if l (if (f (car l)) (cons (car l) (filter f (cdr l))) (filter f (cdr l)))))\n"
    "(defun fold (f x l) (if l (fold f (f x (car l)) (cdr l)) x))\n"
    "(defun range (from to) (if (< from to) (cons from (range (+ from 1) to))))\n"
    "(defun append (a b) (if a (cons (car a) (append (cdr a) b)) b))\n"
    "(defun reverse (l) (fold (lambda (done x) (cons x done)) () l))\n"
    "(print (map (lambda (x) (* x x)) (range 1 11)))\n"
    "(print (fold + 0 (range 0 101)) (reverse '(a (b c) \"d\")))\n"
    "; primes, by division\n"
    "(defun divides (d n) (= (mod n d) 0))\n"
    "(defun prime-from (d n) (if (< n (* d d)) 't (if (divides d n) () (prime-from (+ d 1) n))))\n"
    "(defun prime (n) (prime-from 2 n))\n"
    "(print (filter prime (range 2 40)))\n"
    "; sorting\n"
    "(defun sort (l) (if l\n"
    "  ((lambda (less more) (append (sort less) (cons (car l) (sort more))))\n"
    "    (filter (lambda (x) (< x (car l))) (cdr l))\n"
    "    (filter (lambda (x) (not (< x (car l)))) (cdr l)))))\n"
    "(print (sort '(31 4 15 92 65 35 89 79 32 38 46 26)))\n"
    "; functions that keep what is theirs\n"
    "(defun counter (n) (lambda () (set n (+ n 1))))\n"
    "(define a (counter 10))\n"
    "(define b (counter 100))\n"
    "(print (a) (a) (b) (a))\n"
    "; recursion, and a loop of tail calls that takes no stack\n"
    "(defun fib (n) (if (< n 2) n (+ (fib (- n 1)) (fib (- n 2)))))\n"
    "(print (map fib (range 0 12)))\n"
    "(defun fact (n) (if (< n 2) 1 (* n (fact (- n 1)))))\n"
    "(print (fact 20) (fact 25))\n"
    "(defun count (n m) (if (= n 0) m (count (- n 1) (+ m 2))))\n"
    "(print (count 200 0))\n"
    "; floating point\n"
    "(defun newton (x n times) (if (= times 0) x (newton (/ (+ x (/ n x)) 2) n (- times 1))))\n"
    "(print (newton 1 2 6) (/ 1 3) (floor -2.5) (* 1e10 1e10))\n"
    "; texts\n"
    "(defun sign (n) (join \"<\" n \":\" (if (< n 0) \"below\" \"not below\") \">\"))\n"
    "(print (sign -1.5) (sign 7) (= (sign 1) (sign 1)))\n"
    "; a macro with the rest of its arguments\n"
    "(define unless (macro (condition then) (list 'if condition () then)))\n"
    "(print (unless () 'done) (unless 't (/ 1 0)))\n"
    "; errors end an expression, and the next goes on\n"
    "(print (/ 1 0))\n"
    "(print (undefined 1))\n"
    "(car 5)\n"
    "(fib 1 2)\n"
    "(print 'still 'here)\n"
    "; hanoi\n"
    "(define moves 0)\n"
    "(defun hanoi (n from to by) (if (= n 0) () (begin\n"
    "  (hanoi (- n 1) from by to) (set moves (+ moves 1)) (hanoi (- n 1) by to from))))\n"
    "(hanoi 6 'a 'b 'c)\n"
    "(print moves)\n";

/* Reads and evaluates up to the end of the source; the values where it is stdin. */
static void run(const char *from)
{
    source = from;
    pushed_back = EOF;
    (void)setjmp(top);
    for (int byte = next_letter(); byte != EOF; byte = next_letter()) {
        object *value = evaluate(read_object(byte), NULL);
        if (source == NULL) {
            write_object(value);
            putchar('\n');
        }
    }
}

int main(void)
{
    void *base = NULL;
    stack_base = &base + 1;
    pool = calloc(OBJECTS, sizeof(object));
    if (pool == NULL) {
        puts("no memory");
        return 1;
    }
    sweep();
    for (size_t i = 0; i < sizeof builtins / sizeof builtins[0]; i++) {
        object *it = make(BUILTIN);
        it->as.call = builtins[i].call;
        define(symbol(builtins[i].name), it);
    }
    for (int i = 0; i < FORMS; i++) {
        forms[i] = symbol(form_names[i]);
    }
    run(script);
    run(NULL);
    printf("the collector %s\n", collections > 3 ? "ran" : "hardly ran");
    free(pool);
    return 0;
}
