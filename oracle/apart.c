/* The archive in a process of its own. Requests come on standard input, answers go to standard output, one after another, until the input ends;
   oracle/src/apart.rs is the other side, and says what a message is. The status is 1 where a message is cut short or makes no sense, and 3 where
   a call changed a byte that it was not lent to change. */

typedef unsigned long usize;
typedef unsigned char byte;
/* The C library, as far as it is used: the kit's compiler has no headers. */
long read(int, void *, usize);
long write(int, const void *, usize);
void *memcpy(void *, const void *, usize);
int memcmp(const void *, const void *, usize);
usize strlen(const char *);
_Noreturn void exit(int);

struct answer { usize number, place, length, count; byte modified; };
struct options { usize null_style, indent_sequences, explicit_end, indent, indentless, single_quotes, width; };
struct entry { usize id, start, length; };

/* A lent slice is two arguments: where it begins and how long it is. */
#define IN const byte *, usize
#define OUT byte *, usize
struct answer rassemok_emit_roundtrip(IN, IN, OUT);
struct answer rassemok_emit_roundtrip_with(IN, IN, OUT, usize);
struct answer rassemok_emit_roundtrip_all_with(IN, IN, OUT, usize);
struct answer rassemok_emit_roundtrip_dump(IN, IN, OUT, struct options);
struct answer rassemok_local_modified(IN, IN);
struct answer rassemok_collect_changed_include_changes(IN, IN, OUT, struct entry *, usize);

/* What a request begins with. The length of the list is told in entries. */
enum { DECK, POOL, OUTPUT, LIST, PARTS };
static struct { usize call, length[PARTS]; struct options options; } head;

/* The rest of a request, or an answer; and the room in which the call works on a copy of it. Guard i of the room runs from `end[i]` to `start[i]`,
   and part i from there to `end[i + 1]`. */
enum { ROOM = 4 << 20, GUARD = 64 };
static _Alignas(16) byte message[ROOM], room[ROOM];
static usize end[PARTS + 1], start[PARTS + 1];
static usize size(int part) { return end[part + 1] - start[part]; }

static _Noreturn void fail(int status, const char *sentence) {
    write(2, sentence, strlen(sentence));
    exit(status);
}

/* How many bytes were read: fewer than are wanted where the input ends. */
static usize take(void *to, usize wanted) {
    usize had = 0;
    for (long more = 1; had < wanted && more > 0; had += (usize)more)
        if ((more = read(0, (byte *)to + had, wanted - had)) < 0) fail(1, "apart: the input cannot be read\n");
    return had;
}

/* Writes the message, which begins with its own length. */
static void give(usize length) {
    memcpy(message, &length, sizeof length);
    for (long more, at = 0; at < (long)length; at += more)
        if ((more = write(1, message + at, length - (usize)at)) <= 0) fail(1, "apart: the answer cannot be written\n");
}

/* Each part begins at a multiple of 16. */
static void lay_out(void) {
    usize at = 0;
    for (int i = 0; i <= PARTS; i++) {
        end[i] = at;
        start[i] = (at + GUARD + 15) / 16 * 16;
        if (start[i] > ROOM || (i < PARTS && head.length[i] > ROOM)) fail(1, "apart: a request is too large\n");
        if (i < PARTS) at = start[i] + head.length[i] * (i == LIST ? sizeof(struct entry) : 1);
    }
}

/* Sets each byte of the guards, or looks whether it is as it was set. */
static void guards(int set) {
    for (int i = 0; i <= PARTS; i++)
        for (usize at = end[i]; at < start[i]; at++) {
            byte wanted = (byte)(at * 37 + at / 256 + 11);
            if (set) room[at] = wanted;
            if (room[at] != wanted) fail(3, "apart: a byte outside what was lent is changed\n");
        }
}

static struct answer call(void) {
    byte *d = room + start[DECK], *p = room + start[POOL], *o = room + start[OUTPUT];
    struct entry *l = (struct entry *)(room + start[LIST]);
    usize dn = head.length[DECK], pn = head.length[POOL], on = head.length[OUTPUT], ln = head.length[LIST];
    switch (head.call) {
    case 0: return rassemok_emit_roundtrip(d, dn, p, pn, o, on);
    case 1: return rassemok_emit_roundtrip_with(d, dn, p, pn, o, on, head.options.null_style);
    case 2: return rassemok_emit_roundtrip_all_with(d, dn, p, pn, o, on, head.options.null_style);
    case 3: return rassemok_emit_roundtrip_dump(d, dn, p, pn, o, on, head.options);
    case 4: return rassemok_local_modified(d, dn, p, pn);
    case 5: return rassemok_collect_changed_include_changes(d, dn, p, pn, o, on, l, ln);
    default: fail(1, "apart: a request names no call\n");
    }
}

/* The rest of a request whose head is read: the call, and the answer. */
static void serve(void) {
    lay_out();
    usize whole = size(DECK) + size(POOL) + size(OUTPUT) + size(LIST), at = 0;
    if (take(message, whole) < whole) fail(1, "apart: a request is cut short\n");
    for (int i = 0; i < PARTS; at += size(i), i++) memcpy(room + start[i], message + at, size(i));
    guards(1);
    struct answer came = call();
    guards(0);
    if (memcmp(room + start[DECK], message, size(DECK)) || memcmp(room + start[POOL], message + size(DECK), size(POOL)))
        fail(3, "apart: a byte of deck or pool is changed\n");
    usize numbers[6] = {0, came.number, came.place, came.length, came.count, came.modified};
    memcpy(message, numbers, sizeof numbers);
    at = sizeof numbers;
    for (int i = OUTPUT; i <= LIST; at += size(i), i++) memcpy(message + at, room + start[i], size(i));
    give(at);
}

int main(void) {
    usize had;
    while ((had = take(&head, sizeof head)) == sizeof head) serve();
    if (had > 0) fail(1, "apart: a request is cut short\n");
    return 0;
}
