/* An EtherCAT master and simulated slaves for control programs in C, and in languages that call C. Both are made from a link
   table. The library is proved code; it has no sockets, threads or clock. You carry the frames, so a card, a driver or a test
   can be the wire.

   Link with libecat.a, or with the shared library (`pkg-config --cflags --libs ecat`). `ecat_open` reads a table. `ecat_next`
   and `ecat_take` bring the slaves up. `ecat_begin`, `ecat_part`, `ecat_take` and `ecat_close` make a cycle. A call with a null
   handle, a number out of range or a buffer that is too short changes nothing; each call says below what it then returns. A null
   pointer to bytes counts as no bytes, and a null pointer to a result is allowed.

   Your program must keep these rules; the library doesn't check them:
   - Set a handle to {0} before you open it. Then let only these functions write it, and don't copy it.
   - Use a handle in one call at a time.
   - Pass a pointer to as many bytes as the length beside it says. Nothing else may write them during the call.
   - malloc, realloc and free belong to one allocator, which aligns a block of at least 16 bytes to 16.
   - Don't call from a signal handler, or from the forked child of a process with threads. */
#ifndef ECAT_H
#define ECAT_H

#include <stddef.h>
#include <stdint.h>
#ifndef __cplusplus
#include <stdbool.h>
#endif

/* The version, and the number of the binary interface. A library of another number doesn't fit this file; include/ecat.abi lists
   what the number stands for. */
#define ECAT_VERSION "0.1.0"
#define ECAT_ABI 2

/* The calls are inline functions of each file that includes this one. Define this as nothing in one file to export them from
   it, for example from a shared library. */
#ifndef ECAT_CALL
#define ECAT_CALL static inline
#endif

#ifdef __cplusplus
#define ECAT_AS(type, value) static_cast<type>(value)
#define ECAT_NONE nullptr
extern "C" {
#else
#define ECAT_AS(type, value) ((type)(value))
#define ECAT_NONE NULL
#endif

/* The most bytes that a frame has, and the words of `ecat_explain` with the zero byte behind them. A buffer for them needs so many. */
#define ECAT_FRAME 1472
#define ECAT_WORDS 512

struct ecat { void *at; };
struct ecat_segment { void *at; };

/* Why a table was refused, as `ecat plan` prints it, or a start-up failed, as `ecat loop` does: the number and the name of the
   refusal, and `count` values, with 0 behind them. The name ends with a zero byte. */
struct ecat_refusal {
    uint8_t number;
    char name[24];
    size_t count;
    uint64_t values[4];
};

/* A variable: its name, which ends with a zero byte, how many bits it has, whether your program sets it, and whether it is signed.
   `bit` is its first bit in the image of `ecat_outputs` or `ecat_inputs`; bit 0 is the lowest of the first byte. A variable is signed
   if its table says so. */
struct ecat_variable_info {
    char name[33];
    uint8_t bits;
    bool is_output;
    bool is_signed;
    size_t bit;
};

/* ---- exports of the library: call the functions below instead */

struct ecat_done { uint8_t number; bool is_done; size_t count; };
struct ecat_closed { uint8_t number; bool is_taken; uint16_t al; size_t missing; };
struct ecat_value { bool is_there; uint64_t value; };
struct ecat_refused { bool is_open; uint8_t number; size_t name; size_t count; uint64_t first, second; };
struct ecat_status { bool is_known; uint16_t word, code; };
struct ecat_placed { bool is_there, is_output, is_signed; uint8_t bits; size_t from; };
struct ecat_counted { size_t count, first, second; };

void ecat_c_open(const uint8_t *table, size_t len, uint8_t *name, size_t room, struct ecat_refused *refused, struct ecat *out);
void ecat_c_drop(struct ecat machine);
struct ecat_done ecat_c_next(struct ecat machine, uint8_t *frame, size_t room, struct ecat *out);
struct ecat_done ecat_c_take(struct ecat machine, const uint8_t *payload, size_t len, struct ecat *out);
struct ecat_done ecat_c_phase(struct ecat machine, struct ecat *out);
void ecat_c_give_up(struct ecat machine, struct ecat *out);
bool ecat_c_waits(struct ecat machine, struct ecat *out);
struct ecat_done ecat_c_failure(struct ecat machine, uint64_t *values, size_t room, struct ecat *out);
struct ecat_done ecat_c_failure_name(struct ecat machine, uint8_t *name, size_t room, struct ecat *out);
struct ecat_done ecat_c_explain(struct ecat machine, uint8_t *words, size_t room, struct ecat *out);
struct ecat_done ecat_c_state_next(struct ecat machine, size_t slave, uint8_t *frame, size_t room, struct ecat *out);
struct ecat_status ecat_c_state(struct ecat machine, size_t slave, struct ecat *out);
struct ecat_done ecat_c_slaves(struct ecat machine, struct ecat *out);
struct ecat_done ecat_c_begin(struct ecat machine, struct ecat *out);
struct ecat_done ecat_c_part(struct ecat machine, size_t part, uint8_t *frame, size_t room, struct ecat *out);
struct ecat_closed ecat_c_close(struct ecat machine, struct ecat *out);
struct ecat_done ecat_c_unit(struct ecat machine, uint8_t unit, struct ecat *out);
struct ecat_counted ecat_c_counters(struct ecat machine, size_t part, struct ecat *out);
struct ecat_done ecat_c_set(struct ecat machine, size_t variable, uint64_t value, struct ecat *out);
struct ecat_value ecat_c_get(struct ecat machine, size_t variable, struct ecat *out);
struct ecat_done ecat_c_outputs(struct ecat machine, const uint8_t *outputs, size_t len, struct ecat *out);
struct ecat_done ecat_c_inputs(struct ecat machine, uint8_t *inputs, size_t room, struct ecat *out);
struct ecat_done ecat_c_variable(struct ecat machine, const uint8_t *name, size_t len, struct ecat *out);
struct ecat_value ecat_c_get_signed(struct ecat machine, size_t variable, struct ecat *out);
struct ecat_done ecat_c_variables(struct ecat machine, struct ecat *out);
struct ecat_placed ecat_c_place(struct ecat machine, size_t variable, struct ecat *out);
struct ecat_done ecat_c_name(struct ecat machine, size_t variable, uint8_t *name, size_t room, struct ecat *out);
void ecat_c_segment_open(const uint8_t *table, size_t len, bool full, uint8_t *name, size_t room, struct ecat_refused *refused, struct ecat_segment *out);
void ecat_c_segment_drop(struct ecat_segment segment);
bool ecat_c_segment_pass(struct ecat_segment segment, uint8_t *frame, size_t len, struct ecat_segment *out);
bool ecat_c_segment_serve(struct ecat_segment segment, size_t slave, struct ecat_segment *out);
bool ecat_c_segment_get(struct ecat_segment segment, size_t slave, size_t place, uint8_t *byte, struct ecat_segment *out);
bool ecat_c_segment_put(struct ecat_segment segment, size_t slave, size_t place, uint8_t byte, struct ecat_segment *out);
struct ecat_done ecat_c_segment_outputs(struct ecat_segment segment, size_t slave, uint8_t *outputs, size_t room, struct ecat_segment *out);
struct ecat_done ecat_c_segment_inputs(struct ecat_segment segment, size_t slave, const uint8_t *inputs, size_t len, struct ecat_segment *out);
struct ecat_done ecat_c_segment_exchange(struct ecat_segment segment, size_t slave, const uint8_t *inputs, size_t len, uint8_t *outputs, size_t room, struct ecat_segment *out);
bool ecat_c_segment_fault(struct ecat_segment segment, size_t slave, struct ecat_segment *out);
bool ecat_c_segment_reset(struct ecat_segment segment, size_t slave, struct ecat_segment *out);

/* An export takes a handle by value and hands it back. In between, the handle of a caller whose master changes is {0}. One that
   doesn't change is handed back as it was. */
static inline struct ecat ecat_lent(struct ecat *m) { struct ecat lent = *m; m->at = ECAT_NONE; return lent; }
static inline struct ecat_segment ecat_segment_lent(struct ecat_segment *s) { struct ecat_segment lent = *s; s->at = ECAT_NONE; return lent; }

/* A null pointer becomes a pointer to a byte, with length 0. */
static inline const uint8_t *ecat_bytes(const void *bytes, size_t *len) {
    static const uint8_t none = 0;
    if (!bytes) *len = 0;
    return *len ? ECAT_AS(const uint8_t *, bytes) : &none;
}

static inline uint8_t *ecat_room(uint8_t *bytes, size_t *len) {
    static uint8_t none;
    if (!bytes) *len = 0;
    return *len ? bytes : &none;
}

/* Copies a name, as much of it as fits, and a zero byte. */
static inline void ecat_named(char *to, size_t room, const uint8_t *name, size_t len) {
    size_t k;
    for (k = 0; k + 1 < room && k < len; k++) to[k] = ECAT_AS(char, name[k]);
    to[k] = 0;
}

static inline uint8_t ecat_told(const struct ecat_refused *told, const uint8_t *name, struct ecat_refusal *refusal) {
    uint8_t number = told->is_open ? ECAT_AS(uint8_t, 0) : told->number;
    if (refusal) {
        refusal->number = number;
        ecat_named(refusal->name, sizeof refusal->name, name, told->name);
        refusal->count = told->count;
        refusal->values[0] = told->first;
        refusal->values[1] = told->second;
        refusal->values[2] = refusal->values[3] = 0;
    }
    return number;
}

/* ---- the library */

/* Returns ECAT_VERSION as it was when the calls were built. */
ECAT_CALL const char *ecat_version(void) { return ECAT_VERSION; }

/* ---- a master */

/* Opens the master of the link table in the `len` bytes of `table`. Returns 0, or the number of the refusal. Writes the
   refusal into `refusal` unless that is null; its number is 0 if there was none. Returns 255 if the handle is null or already
   open. */
ECAT_CALL uint8_t ecat_open(struct ecat *m, const char *table, size_t len, struct ecat_refusal *refusal) {
    struct ecat_refused told = {0, 0, 0, 0, 0, 0};
    uint8_t name[24];
    const uint8_t *bytes = ecat_bytes(table, &len);
    if (!m || m->at) { told.number = 255; return ecat_told(&told, name, refusal); }
    ecat_c_open(bytes, len, name, sizeof name, &told, m);
    return ecat_told(&told, name, refusal);
}

/* Frees all that the handle owns; the handle is {0} then. Does nothing if the handle is null or {0}. */
ECAT_CALL void ecat_drop(struct ecat *m) {
    if (m && m->at) ecat_c_drop(ecat_lent(m));
}

/* Writes the next frame of the start-up into `frame`, and returns its length in bytes. Returns 0 if the last frame is still
   outstanding, the start-up is ready, no frame number is left, or `room` is less than ECAT_FRAME. After a failure the start-up
   begins again. */
ECAT_CALL size_t ecat_next(struct ecat *m, uint8_t *frame, size_t room) {
    uint8_t *bytes = ecat_room(frame, &room);
    if (!m || !m->at) return 0;
    return ecat_c_next(ecat_lent(m), bytes, room, m).count;
}

/* Returns true if the frame that `ecat_next` wrote last asks again what the frame before it asked, so that you may rest before you
   send it: 10 ms, say, since real devices may take seconds, and a wait has at most 1000 polls. Frames that write process data don't
   count as frames before it. Returns false for any other frame, or without a handle. */
ECAT_CALL bool ecat_waits(const struct ecat *m) {
    struct ecat same = {ECAT_NONE};
    if (!m || !m->at) return false;
    return ecat_c_waits(*m, &same);
}

/* Takes a payload of `len` bytes that came in. Returns true if it answers the outstanding frame of the start-up, a frame of the open
   cycle, or the last frame of `ecat_state_next`. Returns false and changes nothing for any other payload. `missing` becomes the number of frames of the open
   cycle that aren't back; it stays as it was if there is no handle. */
ECAT_CALL bool ecat_take(struct ecat *m, const uint8_t *payload, size_t len, size_t *missing) {
    const uint8_t *bytes = ecat_bytes(payload, &len);
    if (!m || !m->at) return false;
    struct ecat_done done = ecat_c_take(ecat_lent(m), bytes, len, m);
    if (missing) *missing = done.count;
    return done.is_done;
}

/* Returns 1 if the slaves are up, 0 while the start-up runs or without a handle, or minus the number of its failure. */
ECAT_CALL int ecat_phase(const struct ecat *m) {
    struct ecat same = {ECAT_NONE};
    if (!m || !m->at) return 0;
    struct ecat_done done = ecat_c_phase(*m, &same);
    return done.is_done ? 1 : -ECAT_AS(int, done.number);
}

/* Ends a start-up that runs, with failure 32: call this when no answer comes. One that has ended stays as it is. */
ECAT_CALL void ecat_give_up(struct ecat *m) {
    if (m && m->at) ecat_c_give_up(ecat_lent(m), m);
}

/* Returns true if the last start-up failed. Writes how into `failure` unless that is null; its number is 0 if no start-up failed. */
ECAT_CALL bool ecat_failure(const struct ecat *m, struct ecat_refusal *failure) {
    struct ecat_refusal told = {0, {0}, 0, {0, 0, 0, 0}};
    struct ecat_done done = {0, 0, 0};
    struct ecat same = {ECAT_NONE};
    uint8_t name[24] = {0};
    if (m && m->at) {
        done = ecat_c_failure(*m, told.values, 4, &same);
        told.number = done.number;
        told.count = done.count;
        ecat_named(told.name, sizeof told.name, name, ecat_c_failure_name(*m, name, sizeof name, &same).count);
    }
    if (failure) *failure = told;
    return done.is_done;
}

/* Writes in words how the last start-up failed into `text`, with a zero byte behind them, and returns their length in bytes. Writes
   nothing if they don't fit; ECAT_WORDS bytes are enough. Returns 0 if no start-up failed. */
ECAT_CALL size_t ecat_explain(const struct ecat *m, char *text, size_t room) {
    struct ecat same = {ECAT_NONE};
    size_t len = text && room ? room - 1 : 0;
    uint8_t *bytes = ecat_room(ECAT_AS(uint8_t *, ECAT_AS(void *, text)), &len);
    if (!m || !m->at) return 0;
    struct ecat_done done = ecat_c_explain(*m, bytes, len, &same);
    if (done.is_done) text[done.count] = 0;
    return done.count;
}

/* Writes the frame that asks for the AL state of a slave into `frame`, and returns its length in bytes. Slaves are counted from 0. An
   answer to the frame that it wrote before is foreign from now on. Returns 0 and changes nothing if there is no such slave, or `room`
   is less than ECAT_FRAME. A start-up or a cycle may be under way. */
ECAT_CALL size_t ecat_state_next(struct ecat *m, size_t slave, uint8_t *frame, size_t room) {
    uint8_t *bytes = ecat_room(frame, &room);
    if (!m || !m->at) return 0;
    return ecat_c_state_next(ecat_lent(m), slave, bytes, room, m).count;
}

/* Returns the AL status word that the last answer said of a slave. Bits 0 to 3 are its state: 1 INIT, 2 PREOP, 3 BOOT, 4 SAFEOP,
   8 OP. Bit 4 is set after an error, and `code` becomes the AL status code. Returns -1, and `code` stays, if there was no answer yet,
   the slave didn't touch the last one, or there is no such slave. */
ECAT_CALL int ecat_state(const struct ecat *m, size_t slave, uint16_t *code) {
    struct ecat same = {ECAT_NONE};
    if (!m || !m->at) return -1;
    struct ecat_status told = ecat_c_state(*m, slave, &same);
    if (told.is_known && code) *code = told.code;
    return told.is_known ? ECAT_AS(int, told.word) : -1;
}

/* Returns how many slaves the table has, or 0 without a handle. */
ECAT_CALL size_t ecat_slaves(const struct ecat *m) {
    struct ecat same = {ECAT_NONE};
    if (!m || !m->at) return 0;
    return ecat_c_slaves(*m, &same).count;
}

/* Begins a cycle with the outputs as they are, and returns its number of parts: one frame each. Returns minus the number of the
   refusal: -33 not ready, -34 a cycle is open, -36 no number is left. Returns -255 without a handle. */
ECAT_CALL int ecat_begin(struct ecat *m) {
    if (!m || !m->at) return -255;
    struct ecat_done done = ecat_c_begin(ecat_lent(m), m);
    return done.is_done ? ECAT_AS(int, done.count) : -ECAT_AS(int, done.number);
}

/* Writes the frame of a part of the open cycle into `frame`, and returns its length in bytes. Parts are counted from 0. Returns
   0 if no cycle is open, there is no such part, or the frame doesn't fit. */
ECAT_CALL size_t ecat_part(const struct ecat *m, size_t part, uint8_t *frame, size_t room) {
    uint8_t *bytes = ecat_room(frame, &room);
    struct ecat same = {ECAT_NONE};
    if (!m || !m->at) return 0;
    struct ecat_done done = ecat_c_part(*m, part, bytes, room, &same);
    return done.is_done ? done.count : 0;
}

/* Closes the cycle. Returns true if the inputs of all sync units were taken, and false if not, or if no cycle is open.
   `missing` becomes the number of frames that weren't back, and `al` the OR of the AL status words of the slaves. If no cycle
   is open, both become 0; without a handle both stay. */
ECAT_CALL bool ecat_close(struct ecat *m, size_t *missing, uint16_t *al) {
    if (!m || !m->at) return false;
    struct ecat_closed report = ecat_c_close(ecat_lent(m), m);
    if (missing) *missing = report.missing;
    if (al) *al = report.al;
    return report.is_taken;
}

/* Returns 1 if the last closed cycle took the inputs of the sync unit with this number, and 0 if not. Returns -1 if there is no
   such unit, or no cycle was closed yet. */
ECAT_CALL int ecat_unit(const struct ecat *m, size_t unit) {
    struct ecat same = {ECAT_NONE};
    if (!m || !m->at || unit > 255) return -1;
    struct ecat_done done = ecat_c_unit(*m, ECAT_AS(uint8_t, unit), &same);
    return done.count ? ECAT_AS(int, done.is_done) : -1;
}

/* Returns how many working counters a part has in the report of the last closed cycle: 1 if it went by an LRW, 2 if by an LWR and an
   LRD, and 0 if its frame wasn't back, there is no such part, or no cycle was closed yet. `first` and `second` become the counters, as
   far as there are any, else they stay. */
ECAT_CALL unsigned ecat_counters(const struct ecat *m, size_t part, uint16_t *first, uint16_t *second) {
    struct ecat same = {ECAT_NONE};
    if (!m || !m->at) return 0;
    struct ecat_counted counted = ecat_c_counters(*m, part, &same);
    if (first && counted.count > 0) *first = ECAT_AS(uint16_t, counted.first);
    if (second && counted.count > 1) *second = ECAT_AS(uint16_t, counted.second);
    return ECAT_AS(unsigned, counted.count);
}

/* Sets a variable of the outputs. A negative value is passed as its two's complement in the variable's bits: of 16, value & 0xFFFF.
   Returns false if there is no such variable, it is an input, or it has too few bits. */
ECAT_CALL bool ecat_set(struct ecat *m, size_t variable, uint64_t value) {
    if (!m || !m->at) return false;
    return ecat_c_set(ecat_lent(m), variable, value, m).is_done;
}

/* Returns the value of a variable, or 0 if there is no such variable. */
ECAT_CALL uint64_t ecat_get(const struct ecat *m, size_t variable) {
    struct ecat same = {ECAT_NONE};
    if (!m || !m->at) return 0;
    return ecat_c_get(*m, variable, &same).value;
}

/* As `ecat_get`, with the sign of the variable (`is_signed` of `ecat_variable_info`). The value of one that isn't signed is that of
   `ecat_get`; of its 64 bits the highest then counts as a sign. */
ECAT_CALL int64_t ecat_get_signed(const struct ecat *m, size_t variable) {
    struct ecat same = {ECAT_NONE};
    if (!m || !m->at) return 0;
    struct ecat_value done = ecat_c_get_signed(*m, variable, &same);
    return ECAT_AS(int64_t, done.value);
}

/* Returns the length in bytes of the image of all outputs, or 0 without a handle. Sets the image if `len` is this length. The
   image has the output variables bit by bit, in the order of the table, without gaps. */
ECAT_CALL size_t ecat_outputs(struct ecat *m, const uint8_t *outputs, size_t len) {
    const uint8_t *bytes = ecat_bytes(outputs, &len);
    if (!m || !m->at) return 0;
    return ecat_c_outputs(ecat_lent(m), bytes, len, m).count;
}

/* Returns the length in bytes of the image of all inputs, or 0 without a handle. Writes the image into `inputs` if `room` is not
   less than this length. */
ECAT_CALL size_t ecat_inputs(const struct ecat *m, uint8_t *inputs, size_t room) {
    uint8_t *bytes = ecat_room(inputs, &room);
    struct ecat same = {ECAT_NONE};
    if (!m || !m->at) return 0;
    return ecat_c_inputs(*m, bytes, room, &same).count;
}

/* Returns the number of the variable with this name, or -1 if there is none. The name ends with a zero byte. */
ECAT_CALL long ecat_variable(const struct ecat *m, const char *name) {
    size_t len = 0;
    struct ecat same = {ECAT_NONE};
    if (!m || !m->at || !name) return -1;
    while (name[len]) len++;
    struct ecat_done done = ecat_c_variable(*m, ecat_bytes(name, &len), len, &same);
    return done.is_done ? ECAT_AS(long, done.count) : -1;
}

/* Returns how many variables the table has, or 0 without a handle. They are numbered from 0, in the order of the table. */
ECAT_CALL size_t ecat_variables(const struct ecat *m) {
    struct ecat same = {ECAT_NONE};
    if (!m || !m->at) return 0;
    return ecat_c_variables(*m, &same).count;
}

/* in C++ the call below hides the constructor of the struct with its name, which nobody calls */
#if defined(__cplusplus) && defined(__GNUC__)
#pragma GCC diagnostic push
#pragma GCC diagnostic ignored "-Wshadow"
#endif

/* Describes the variable with this number in `info`, unless that is null. Returns false and changes nothing if there is no such
   variable. */
ECAT_CALL bool ecat_variable_info(const struct ecat *m, size_t variable, struct ecat_variable_info *info) {
    struct ecat same = {ECAT_NONE};
    uint8_t name[33] = {0};
    if (!m || !m->at) return false;
    struct ecat_placed place = ecat_c_place(*m, variable, &same);
    if (!place.is_there || !info) return place.is_there;
    ecat_named(info->name, sizeof info->name, name, ecat_c_name(*m, variable, name, sizeof name, &same).count);
    info->bits = place.bits;
    info->is_output = place.is_output;
    info->is_signed = place.is_signed;
    info->bit = place.from;
    return true;
}

#if defined(__cplusplus) && defined(__GNUC__)
#pragma GCC diagnostic pop
#endif

/* ---- a segment: the slaves of a link table */

/* Opens the slaves of a link table, just switched on. Returns as `ecat_open` does. With `full` the slaves have what common
   masters look for (docs/PROFILE.md, "Full slaves"). */
ECAT_CALL uint8_t ecat_segment_open(struct ecat_segment *s, const char *table, size_t len, bool full, struct ecat_refusal *refusal) {
    struct ecat_refused told = {0, 0, 0, 0, 0, 0};
    uint8_t name[24];
    const uint8_t *bytes = ecat_bytes(table, &len);
    if (!s || s->at) { told.number = 255; return ecat_told(&told, name, refusal); }
    ecat_c_segment_open(bytes, len, full, name, sizeof name, &told, s);
    return ecat_told(&told, name, refusal);
}

/* Frees all that the handle owns; the handle is {0} then. Does nothing if the handle is null or {0}. */
ECAT_CALL void ecat_segment_drop(struct ecat_segment *s) {
    if (s && s->at) ecat_c_segment_drop(ecat_segment_lent(s));
}

/* Passes a frame of `len` bytes through all slaves, in place. Returns false and changes nothing if the bytes are no frame. */
ECAT_CALL bool ecat_segment_pass(struct ecat_segment *s, uint8_t *frame, size_t len) {
    uint8_t *bytes = ecat_room(frame, &len);
    if (!s || !s->at) return false;
    return ecat_c_segment_pass(ecat_segment_lent(s), bytes, len, s);
}

/* The calls below are for one slave, counted from 0. Each returns false, or 0, and changes nothing if there is no such slave. */

/* Makes a firmware step of the slave: AL request, SII read, one mailbox message. */
ECAT_CALL bool ecat_segment_serve(struct ecat_segment *s, size_t slave) {
    if (!s || !s->at) return false;
    return ecat_c_segment_serve(ecat_segment_lent(s), slave, s);
}

/* The slave's application reads the byte `place` of its outputs. Read from byte 0 on: byte 0 opens a view, and the last byte
   closes it. Returns false and changes nothing if the application may not read the byte. */
ECAT_CALL bool ecat_segment_get(struct ecat_segment *s, size_t slave, size_t place, uint8_t *byte) {
    uint8_t read = 0;
    if (!s || !s->at) return false;
    bool done = ecat_c_segment_get(ecat_segment_lent(s), slave, place, &read, s);
    if (done && byte) *byte = read;
    return done;
}

/* The slave's application writes the byte `place` of its inputs. Write from byte 0 on: byte 0 opens a draft, and the last byte
   publishes it. Returns false and changes nothing if the application may not write the byte. */
ECAT_CALL bool ecat_segment_put(struct ecat_segment *s, size_t slave, size_t place, uint8_t byte) {
    if (!s || !s->at) return false;
    return ecat_c_segment_put(ecat_segment_lent(s), slave, place, byte, s);
}

/* Returns the length in bytes of the outputs that the slave's application may read now. Reads all of them into `outputs`, as
   `ecat_segment_get` would from byte 0 on, if `room` is not less than this length. */
ECAT_CALL size_t ecat_segment_outputs(struct ecat_segment *s, size_t slave, uint8_t *outputs, size_t room) {
    uint8_t *bytes = ecat_room(outputs, &room);
    if (!s || !s->at) return 0;
    return ecat_c_segment_outputs(ecat_segment_lent(s), slave, bytes, room, s).count;
}

/* Returns the length in bytes of the inputs that the slave's application may write now. Writes as many of the bytes of `inputs`, as
   `ecat_segment_put` would from byte 0 on, if `len` is not less than this length. */
ECAT_CALL size_t ecat_segment_inputs(struct ecat_segment *s, size_t slave, const uint8_t *inputs, size_t len) {
    const uint8_t *bytes = ecat_bytes(inputs, &len);
    if (!s || !s->at) return 0;
    return ecat_c_segment_inputs(ecat_segment_lent(s), slave, bytes, len, s).count;
}

/* A step of the slave and of its application, in one call: `ecat_segment_serve`, `ecat_segment_inputs` with the `len` bytes of
   `inputs`, and `ecat_segment_outputs` into `outputs`, whose result it returns. The two may not overlap. */
ECAT_CALL size_t ecat_segment_exchange(struct ecat_segment *s, size_t slave, const uint8_t *inputs, size_t len, uint8_t *outputs, size_t room) {
    const uint8_t *given = ecat_bytes(inputs, &len);
    uint8_t *bytes = ecat_room(outputs, &room);
    if (!s || !s->at) return 0;
    return ecat_c_segment_exchange(ecat_segment_lent(s), slave, given, len, bytes, room, s).count;
}

/* The slave's application has a fault: the slave goes from OP to SAFEOP, and sets the error flag of its AL status. Returns false
   and changes nothing if the slave isn't in OP. */
ECAT_CALL bool ecat_segment_fault(struct ecat_segment *s, size_t slave) {
    if (!s || !s->at) return false;
    return ecat_c_segment_fault(ecat_segment_lent(s), slave, s);
}

/* Switches the slave off and on. */
ECAT_CALL bool ecat_segment_reset(struct ecat_segment *s, size_t slave) {
    if (!s || !s->at) return false;
    return ecat_c_segment_reset(ecat_segment_lent(s), slave, s);
}

#ifdef __cplusplus
}
#endif
#endif
