/* Answers requests of the case language (tests/cases/README.md) by the calls of include/ozoravesh.h:
   all but `solid`, which is a program's. A lent list that a call changed where it should not have is
   told by a line `changed`, which no expected answer has. */
#include "../../include/ozoravesh.h"
#include "blanks.h"
#include <stdio.h>
#include <stdlib.h>
#include <string.h>

static char word[262144];

static void stop(const char *what) {
    printf("? %s\n", what);
    exit(1);
}

static const char *next(void) {
    if (scanf("%262143s", word) != 1) {
        stop("a word is missing");
    }
    return word;
}

static uint64_t decimal(void) {
    uint64_t n = 0;
    for (const char *c = next(); *c != 0; c++) {
        n = 10 * n + (uint64_t)(*c - '0');
    }
    return n;
}

static uint64_t digit(char c) {
    return (uint64_t)(c <= '9' ? c - '0' : c - 'a' + 10);
}

static void named(const char *name) {
    if (strcmp(next(), name) != 0) {
        stop(name);
    }
}

/* A list that is lent, or was read: its numbers, its length, and what it held before the call. */
typedef struct {
    void *now;
    void *before;
    size_t length;
    size_t size;
} list;

static list room(size_t length, size_t size) {
    list l = {NULL, NULL, length, size};
    if (length > 0) {
        l.now = malloc(length * size);
        l.before = malloc(length * size);
        fill_with_blanks(l.now, length * size);
        fill_with_blanks(l.before, length * size);
    }
    return l;
}

static void done(list l) {
    free(l.now);
    free(l.before);
}

static list floats(const char *name) {
    named(name);
    list l = room(decimal(), sizeof(double));
    for (size_t i = 0; i < l.length; i++) {
        uint64_t bits = 0;
        for (const char *c = next(); *c != 0; c++) {
            bits = 16 * bits + digit(*c);
        }
        memcpy((double *)l.now + i, &bits, sizeof bits);
    }
    return l;
}

static list numbers(const char *name) {
    named(name);
    list l = room(decimal(), sizeof(uint32_t));
    for (size_t i = 0; i < l.length; i++) {
        ((uint32_t *)l.now)[i] = (uint32_t)decimal();
    }
    return l;
}

static list octets(void) {
    named("bytes");
    list l = room(decimal(), 1);
    if (l.length > 0) {
        const char *c = next();
        if (strlen(c) != 2 * l.length) {
            stop("bytes");
        }
        for (size_t i = 0; i < l.length; i++) {
            ((uint8_t *)l.now)[i] = (uint8_t)(16 * digit(c[2 * i]) + digit(c[2 * i + 1]));
        }
    }
    return l;
}

/* Behind the first `used` numbers everything is to be as before. */
static void behind(list l, size_t used) {
    size_t from = used * l.size;
    if (used > l.length
        || (l.length > used && memcmp((char *)l.now + from, (char *)l.before + from, (l.length - used) * l.size) != 0)) {
        printf("changed\n");
    }
}

static void put_float(const double *x) {
    uint64_t bits;
    memcpy(&bits, x, sizeof bits);
    printf(" %016llx", (unsigned long long)bits);
}

static void put_vertices(list points, size_t n) {
    for (size_t i = 0; i < n; i++) {
        printf("v");
        for (size_t k = 0; k < 3; k++) {
            put_float((double *)points.now + 3 * i + k);
        }
        printf("\n");
    }
}

static void put_corners(list corners, size_t i) {
    const uint32_t *c = (uint32_t *)corners.now + 3 * i;
    printf(" %u %u %u", c[0], c[1], c[2]);
}

/* ANSWER WHO PLACE, with which a first line begins. */
static void put_answer(ozoravesh_answer a) {
    printf("%u %c %zu", a.number, "-ABSP"[a.who], a.place);
}

static void answer_op(void) {
    uint32_t code = (uint32_t)decimal();
    list ap = floats("ap");
    list ac = numbers("ac");
    list bp = floats("bp");
    list bc = numbers("bc");
    named("room");
    list points = room(decimal(), sizeof(double));
    list corners = room(decimal(), sizeof(uint32_t));
    list origins = room(decimal(), sizeof(uint32_t));
    ozoravesh_made m = ozoravesh_operate(
        code, ap.now, ap.length, ac.now, ac.length, bp.now, bp.length, bc.now, bc.length,
        points.now, points.length, corners.now, corners.length, origins.now, origins.length);
    put_answer(m.answer);
    printf(" %zu %zu\n", m.vertices, m.triangles);
    put_vertices(points, m.vertices);
    for (size_t i = 0; i < m.triangles; i++) {
        printf("t");
        put_corners(corners, i);
        printf(" %u\n", ((uint32_t *)origins.now)[i]);
    }
    behind(points, 3 * m.vertices);
    behind(corners, 3 * m.triangles);
    behind(origins, m.triangles);
    done(ap), done(ac), done(bp), done(bc), done(points), done(corners), done(origins);
}

static void answer_count(void) {
    int as_a = strcmp(next(), "A") == 0;
    list pt = floats("pt");
    list sp = floats("sp");
    list sc = numbers("sc");
    const double *v = pt.now;
    ozoravesh_counted c = as_a
        ? ozoravesh_count_as_a(v[0], v[1], v[2], sp.now, sp.length, sc.now, sc.length)
        : ozoravesh_count_as_b(v[0], v[1], v[2], sp.now, sp.length, sc.now, sc.length);
    put_answer(c.answer);
    printf(" %d\n", c.count);
    done(pt), done(sp), done(sc);
}

static void answer_admit(void) {
    list sp = floats("sp");
    list sc = numbers("sc");
    put_answer(ozoravesh_admit(sp.now, sp.length, sc.now, sc.length));
    printf("\n");
    done(sp), done(sc);
}

static void answer_shown(void) {
    list ac = numbers("ac");
    list bc = numbers("bc");
    named("origin");
    size_t origin = decimal();
    list part = room(5, sizeof(uint32_t));
    ozoravesh_written w =
        ozoravesh_shown(ac.now, ac.length, bc.now, bc.length, origin, part.now, part.length);
    printf("%zu", w.used);
    if (w.used == 3) {
        put_corners(part, 0);
    }
    printf("\n");
    behind(part, w.used);
    done(ac), done(bc), done(part);
}

/* Three numbers, the last of them the bytes used or the unit, and the solid in the fronts. */
static void put_solid(list points, size_t vertices, list corners, size_t facets, size_t last) {
    printf(" %zu %zu %zu\n", vertices, facets, last);
    put_vertices(points, vertices);
    for (size_t i = 0; i < facets; i++) {
        printf("f");
        put_corners(corners, i);
        printf("\n");
    }
    behind(points, 3 * vertices);
    behind(corners, 3 * facets);
}

/* A house file read, or a row made into a box. */
static void answer_taken_in(int row) {
    list bytes = octets();
    named("room");
    list points = room(decimal(), sizeof(double));
    list corners = room(decimal(), sizeof(uint32_t));
    if (row) {
        ozoravesh_boxed b = ozoravesh_box(
            bytes.now, bytes.length, points.now, points.length, corners.now, corners.length);
        put_answer(b.answer);
        put_solid(points, b.vertices, corners, b.facets, b.unit);
    } else {
        ozoravesh_was_read r = ozoravesh_read(
            bytes.now, bytes.length, points.now, points.length, corners.now, corners.length);
        put_answer(r.answer);
        put_solid(points, r.vertices, corners, r.facets, r.used);
    }
    done(bytes), done(points), done(corners);
}

static void answer_write(void) {
    list sp = floats("sp");
    list sc = numbers("sc");
    named("room");
    list bytes = room(decimal(), 1);
    ozoravesh_written w =
        ozoravesh_write(sp.now, sp.length, sc.now, sc.length, bytes.now, bytes.length);
    put_answer(w.answer);
    printf(" %zu\n", w.used);
    if (w.answer.number == 0) {
        printf("b ");
        for (size_t i = 0; i < w.used; i++) {
            printf("%02x", ((uint8_t *)bytes.now)[i]);
        }
        printf("\n");
    }
    behind(bytes, w.used);
    done(sp), done(sc), done(bytes);
}

static void answer_solid(void) {
    list bytes = octets();
    ozoravesh_made m = ozoravesh_program(bytes.now, bytes.length);
    printf("%u %zu %zu\n", m.answer.number, m.vertices, m.triangles);
    done(bytes);
}

int main(void) {
    while (scanf("%262143s", word) == 1) {
        if (strcmp(word, "op") == 0) {
            answer_op();
        } else if (strcmp(word, "count") == 0) {
            answer_count();
        } else if (strcmp(word, "admit") == 0) {
            answer_admit();
        } else if (strcmp(word, "shown") == 0) {
            answer_shown();
        } else if (strcmp(word, "read") == 0) {
            answer_taken_in(0);
        } else if (strcmp(word, "write") == 0) {
            answer_write();
        } else if (strcmp(word, "box") == 0) {
            answer_taken_in(1);
        } else if (strcmp(word, "solid") == 0) {
            answer_solid();
        } else {
            stop("an unknown request");
        }
        printf(".\n");
    }
    return 0;
}
