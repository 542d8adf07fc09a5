/* Calls every function of include/ozoravesh.h: the samples of document 01 that speak of calls,
   lists of length 0 with a null pointer, every refusal with whom it is on and where, blanks, and
   rooms that are too short by one. Lent lists are filled with blanks of several patterns before
   each call, and what a call leaves alone is compared byte by byte. */
#include "../../include/ozoravesh.h"
#include "blanks.h"
#include <stdio.h>
#include <string.h>

static int checks = 0;
static int failed = 0;

static void expect(int holds, int line) {
    checks++;
    if (!holds) {
        failed++;
        printf("calls.c:%d: does not hold\n", line);
    }
}
#define EXPECT(fact) expect((fact), __LINE__)

/* T of the sample table. */
static const double T[12] = {0, 0, 0, 4, 0, 0, 0, 4, 0, 0, 0, 4};
static const uint32_t F[12] = {0, 2, 1, 0, 1, 3, 0, 3, 2, 1, 2, 3};

static double blank(void) {
    uint64_t bits = 0x7ff8000000000000u;
    double x;
    memcpy(&x, &bits, sizeof x);
    return x;
}

/* The f64 above a positive one. */
static double above(double x) {
    uint64_t bits;
    memcpy(&bits, &x, sizeof x);
    bits++;
    memcpy(&x, &bits, sizeof x);
    return x;
}

/* Lent lists, with room behind what the calls are told of. */
static double points[400];
static uint32_t corners[800];
static uint32_t origins[300];
static uint8_t bytes[8000];

static void mark(void) {
    fill_with_blanks(points, sizeof points);
    fill_with_blanks(corners, sizeof corners);
    fill_with_blanks(origins, sizeof origins);
    fill_with_blanks(bytes, sizeof bytes);
}

/* Are the blanks still there, bit for bit, from byte `from` on? */
static int marked(const void *list, size_t size, size_t from) {
    const uint8_t *b = list;
    for (size_t i = from; i < size; i++) {
        if (b[i] != ((const uint8_t *)BLANKS)[i % sizeof BLANKS]) {
            return 0;
        }
    }
    return 1;
}

/* All four lists as they were behind so many numbers of each. */
static int kept(size_t np, size_t nc, size_t no, size_t nb) {
    return marked(points, sizeof points, np * sizeof points[0])
        && marked(corners, sizeof corners, nc * sizeof corners[0])
        && marked(origins, sizeof origins, no * sizeof origins[0]) && marked(bytes, sizeof bytes, nb);
}

/* An answer that speaks of nobody, one on the only solid, and one on anybody. */
static ozoravesh_answer on(uint32_t number, uint32_t who, size_t place) {
    ozoravesh_answer a = {number, who, place};
    return a;
}

static ozoravesh_answer plain(uint32_t number) {
    return on(number, OZORAVESH_NOBODY, 0);
}

static ozoravesh_answer on_solid(uint32_t number, size_t place) {
    return on(number, OZORAVESH_ONLY_SOLID, place);
}

static int same(ozoravesh_answer a, ozoravesh_answer b) {
    return a.number == b.number && a.who == b.who && a.place == b.place;
}

static void admission(void) {
    static double many[387];
    static const double one[3] = {1048576.0, -1048576.0, 0};
    double p[12];
    uint32_t f[12];

    EXPECT(same(ozoravesh_admit(NULL, 0, NULL, 0), plain(0)));
    EXPECT(same(ozoravesh_admit(T, 12, F, 12), plain(0)));
    EXPECT(same(ozoravesh_admit(T, 12, NULL, 0), plain(0)));
    EXPECT(same(ozoravesh_admit(T, 11, F, 12), on_solid(1, 0)));
    EXPECT(same(ozoravesh_admit(T, 12, F, 10), on_solid(1, 0)));
    EXPECT(same(ozoravesh_admit(many, 384, NULL, 0), plain(0)));
    EXPECT(same(ozoravesh_admit(many, 387, NULL, 0), on_solid(2, 0)));
    EXPECT(same(ozoravesh_admit(one, 3, NULL, 0), plain(0)));
    EXPECT(same(ozoravesh_admit(NULL, 0, F, 12), on_solid(10, 0)));
    EXPECT(same(ozoravesh_admit(T, 12, F, 9), on_solid(6, 0)));

    memcpy(p, T, sizeof p);
    p[5] = above(1048576.0);
    EXPECT(same(ozoravesh_admit(p, 12, F, 12), on_solid(4, 1)));
    p[7] = blank();
    EXPECT(same(ozoravesh_admit(p, 12, F, 12), on_solid(3, 2)));
    EXPECT(same(ozoravesh_admit(p, 12, F, 9), on_solid(3, 2)));

    memcpy(f, F, sizeof f);
    f[11] = 4;
    EXPECT(same(ozoravesh_admit(T, 12, f, 12), on_solid(10, 3)));
    f[11] = 4294967295u;
    EXPECT(same(ozoravesh_admit(T, 12, f, 12), on_solid(10, 3)));
    f[11] = 2;
    EXPECT(same(ozoravesh_admit(T, 12, f, 12), on_solid(11, 3)));
}

static int counts(ozoravesh_counted c, ozoravesh_answer answer, int32_t count) {
    return same(c.answer, answer) && c.count == count;
}

static void containment(void) {
    double p[12];

    /* P3 to P8 */
    EXPECT(counts(ozoravesh_count_as_b(2, 1, 0.5, T, 12, F, 12), plain(0), 1));
    EXPECT(counts(ozoravesh_count_as_b(2, 1, 1, T, 12, F, 12), plain(0), 1));
    EXPECT(counts(ozoravesh_count_as_b(2, 1, 0, T, 12, F, 12), plain(0), 0));
    EXPECT(counts(ozoravesh_count_as_b(2, 1, 1.5, T, 12, F, 12), plain(0), 0));
    EXPECT(counts(ozoravesh_count_as_a(2, 1, 1, T, 12, F, 12), plain(0), 0));
    EXPECT(counts(ozoravesh_count_as_a(2, 1, 0, T, 12, F, 12), plain(0), 1));

    EXPECT(counts(ozoravesh_count_as_a(2, 1, 0, NULL, 0, NULL, 0), plain(0), 0));
    EXPECT(counts(ozoravesh_count_as_b(2, 1, 0, NULL, 0, NULL, 0), plain(0), 0));
    EXPECT(counts(ozoravesh_count_as_a(2, blank(), 0, T, 11, F, 12), on(3, OZORAVESH_POINT, 0), 0));
    EXPECT(counts(ozoravesh_count_as_b(above(1048576.0), 1, blank(), T, 12, F, 12), on(3, OZORAVESH_POINT, 0), 0));
    EXPECT(counts(ozoravesh_count_as_b(2, 1, -above(1048576.0), T, 11, F, 12), on(4, OZORAVESH_POINT, 0), 0));
    EXPECT(counts(ozoravesh_count_as_a(2, 1, 0, T, 11, F, 12), on_solid(1, 0), 0));
    EXPECT(counts(ozoravesh_count_as_b(2, 1, 0.5, T, 12, F, 9), on_solid(6, 0), 0));
    memcpy(p, T, sizeof p);
    p[0] = blank();
    EXPECT(counts(ozoravesh_count_as_a(2, 1, 0.5, p, 12, F, 12), on_solid(3, 0), 0));

    /* T turned inside out contains the point -1 times. */
    {
        static const uint32_t turned[12] = {0, 1, 2, 0, 3, 1, 0, 2, 3, 1, 3, 2};
        EXPECT(counts(ozoravesh_count_as_b(2, 1, 0.5, T, 12, turned, 12), plain(0), -1));
    }
}

static int fills(ozoravesh_written w, ozoravesh_answer answer, size_t used) {
    return same(w.answer, answer) && w.used == used;
}

static void showing(void) {
    static const uint32_t g[8] = {9, 8, 7, 6, 5, 4, 3, 2};

    mark();
    EXPECT(fills(ozoravesh_shown(F, 12, g, 8, 3, corners, 3), plain(0), 3));
    EXPECT(corners[0] == 1 && corners[1] == 2 && corners[2] == 3 && kept(0, 3, 0, 0));
    mark();
    EXPECT(fills(ozoravesh_shown(F, 12, g, 8, 5, corners, 800), plain(0), 3));
    EXPECT(corners[0] == 6 && corners[1] == 5 && corners[2] == 4 && kept(0, 3, 0, 0));
    mark();
    EXPECT(fills(ozoravesh_shown(F, 12, g, 8, 0, corners, 2), plain(8), 0));
    EXPECT(fills(ozoravesh_shown(F, 12, g, 8, 4, NULL, 0), plain(8), 0));
    EXPECT(fills(ozoravesh_shown(F, 12, g, 8, 6, corners, 3), plain(0), 0));
    EXPECT(fills(ozoravesh_shown(F, 12, g, 8, (size_t)-1, NULL, 0), plain(0), 0));
    EXPECT(fills(ozoravesh_shown(NULL, 0, NULL, 0, 0, corners, 3), plain(0), 0));
    EXPECT(fills(ozoravesh_shown(F, 2, g, 8, 0, corners, 3), plain(0), 3));
    EXPECT(corners[0] == 9 && corners[1] == 8 && corners[2] == 7 && kept(0, 3, 0, 0));
}

static int is_read(ozoravesh_was_read r, ozoravesh_answer answer, size_t vertices, size_t facets, size_t used) {
    return same(r.answer, answer) && r.vertices == vertices && r.facets == facets && r.used == used;
}

static void files(void) {
    uint8_t file[162];
    double p[12];

    /* T's file has 4 * 26 + 4 * 14 + 2 bytes. */
    mark();
    EXPECT(fills(ozoravesh_write(T, 12, F, 12, bytes, 161), plain(8), 0));
    EXPECT(fills(ozoravesh_write(T, 12, F, 12, NULL, 0), plain(8), 0));
    EXPECT(fills(ozoravesh_write(T, 12, F, 9, bytes, 8000), on_solid(6, 0), 0));
    EXPECT(fills(ozoravesh_write(T, 12, F, 11, NULL, 0), on_solid(1, 0), 0));
    memcpy(p, T, sizeof p);
    p[11] = blank();
    EXPECT(fills(ozoravesh_write(p, 12, F, 12, bytes, 8000), on_solid(3, 3), 0));
    EXPECT(kept(0, 0, 0, 0));
    EXPECT(fills(ozoravesh_write(NULL, 0, NULL, 0, bytes, 2), plain(0), 2));
    EXPECT(bytes[0] == 'E' && bytes[1] == 'N' && kept(0, 0, 0, 2));
    EXPECT(fills(ozoravesh_write(T, 12, F, 12, bytes, 162), plain(0), 162));
    EXPECT(memcmp(bytes, "VX", 2) == 0 && memcmp(bytes + 104, "FC", 2) == 0 && memcmp(bytes + 160, "EN", 2) == 0 && kept(0, 0, 0, 162));

    memcpy(file, bytes, sizeof file);
    mark();
    EXPECT(is_read(ozoravesh_read(NULL, 0, points, 400, corners, 800), plain(9), 0, 0, 0));
    EXPECT(is_read(ozoravesh_read(file, 161, points, 400, corners, 800), plain(9), 0, 0, 0));
    EXPECT(is_read(ozoravesh_read(file, 162, points, 11, corners, 800), plain(8), 0, 0, 0));
    EXPECT(is_read(ozoravesh_read(file, 162, points, 400, corners, 11), plain(8), 0, 0, 0));
    EXPECT(is_read(ozoravesh_read(file, 162, NULL, 0, NULL, 0), plain(8), 0, 0, 0));
    EXPECT(is_read(ozoravesh_read((const uint8_t *)"ENxyz", 5, NULL, 0, NULL, 0), plain(0), 0, 0, 2));
    /* A blank in the last vertex's z: its high bytes are the file's last before the facets. */
    file[102] = 0xf8;
    file[103] = 0x7f;
    EXPECT(is_read(ozoravesh_read(file, 162, points, 12, corners, 12), on_solid(3, 3), 0, 0, 0));
    file[103] = 0xff;
    EXPECT(is_read(ozoravesh_read(file, 162, points, 12, corners, 12), on_solid(3, 3), 0, 0, 0));
    EXPECT(kept(0, 0, 0, 0));
    file[102] = 0x10;
    file[103] = 0x40;
    EXPECT(is_read(ozoravesh_read(file, 162, points, 12, corners, 12), plain(0), 4, 4, 162));
    EXPECT(memcmp(points, T, sizeof T) == 0 && memcmp(corners, F, sizeof F) == 0 && kept(12, 12, 0, 0));
}

static int makes(ozoravesh_made m, ozoravesh_answer answer, size_t vertices, size_t triangles) {
    return same(m.answer, answer) && m.vertices == vertices && m.triangles == triangles;
}

static void operations(void) {
    static const double lone[3] = {1, 2, 3};
    static const uint32_t four[4] = {0, 1, 2, 3};
    double p[12];

    /* P11: T less nothing, in just enough room, and with one number less in each list. */
    mark();
    EXPECT(makes(ozoravesh_operate(2, T, 12, F, 12, NULL, 0, NULL, 0, points, 11, corners, 12, origins, 4), plain(8), 0, 0));
    EXPECT(makes(ozoravesh_operate(2, T, 12, F, 12, NULL, 0, NULL, 0, points, 12, corners, 11, origins, 4), plain(8), 0, 0));
    EXPECT(makes(ozoravesh_operate(2, T, 12, F, 12, NULL, 0, NULL, 0, points, 12, corners, 12, origins, 3), plain(8), 0, 0));
    EXPECT(makes(ozoravesh_operate(2, T, 12, F, 12, NULL, 0, NULL, 0, NULL, 0, NULL, 0, NULL, 0), plain(8), 0, 0));
    EXPECT(kept(0, 0, 0, 0));
    EXPECT(makes(ozoravesh_operate(2, T, 12, F, 12, NULL, 0, NULL, 0, points, 12, corners, 12, origins, 4), plain(0), 4, 4));
    EXPECT(memcmp(points, T, sizeof T) == 0 && memcmp(corners, F, sizeof F) == 0 && memcmp(origins, four, sizeof four) == 0 && kept(12, 12, 4, 0));

    /* P12 and P13, and nothing with nothing. */
    mark();
    EXPECT(makes(ozoravesh_operate(1, T, 12, F, 12, NULL, 0, NULL, 0, points, 12, corners, 12, origins, 4), plain(0), 0, 0));
    EXPECT(makes(ozoravesh_operate(1, T, 12, F, 12, NULL, 0, NULL, 0, NULL, 0, NULL, 0, NULL, 0), plain(0), 0, 0));
    EXPECT(makes(ozoravesh_operate(0, NULL, 0, NULL, 0, NULL, 0, NULL, 0, NULL, 0, NULL, 0, NULL, 0), plain(0), 0, 0));
    EXPECT(kept(0, 0, 0, 0));
    EXPECT(makes(ozoravesh_operate(0, lone, 3, NULL, 0, NULL, 0, NULL, 0, points, 3, NULL, 0, NULL, 0), plain(0), 1, 0));
    EXPECT(memcmp(points, lone, sizeof lone) == 0 && kept(3, 0, 0, 0));

    /* The order of refusals: 7, A's, B's, 8. */
    mark();
    memcpy(p, T, sizeof p);
    p[4] = blank();
    EXPECT(makes(ozoravesh_operate(3, p, 11, F, 12, T, 12, F, 12, points, 400, corners, 800, origins, 300), plain(7), 0, 0));
    EXPECT(makes(ozoravesh_operate(4294967295u, T, 12, F, 12, T, 12, F, 12, points, 400, corners, 800, origins, 300), plain(7), 0, 0));
    EXPECT(makes(ozoravesh_operate(0, p, 12, F, 12, T, 11, F, 12, points, 400, corners, 800, origins, 300), on(3, OZORAVESH_A, 1), 0, 0));
    EXPECT(makes(ozoravesh_operate(1, T, 12, F, 12, p, 12, F, 9, points, 400, corners, 800, origins, 300), on(3, OZORAVESH_B, 1), 0, 0));
    EXPECT(makes(ozoravesh_operate(2, T, 12, F, 9, p, 12, F, 12, NULL, 0, NULL, 0, NULL, 0), on(6, OZORAVESH_A, 0), 0, 0));
    EXPECT(kept(0, 0, 0, 0));
}

/* The letter D, T's file and a file of only EN; the same with a byte behind it, with another letter, and cut. */
static void program(void) {
    uint8_t input[166];
    input[0] = 'D';
    EXPECT(fills(ozoravesh_write(T, 12, F, 12, input + 1, 162), plain(0), 162));
    memcpy(input + 163, "ENx", 3);
    EXPECT(makes(ozoravesh_program(input, 165), plain(0), 4, 4));
    EXPECT(makes(ozoravesh_program(input, 166), plain(9), 0, 0));
    EXPECT(makes(ozoravesh_program(input, 164), plain(9), 0, 0));
    EXPECT(makes(ozoravesh_program(NULL, 0), plain(9), 0, 0));
    input[0] = 'd';
    EXPECT(makes(ozoravesh_program(input, 166), plain(7), 0, 0));
}

/* Every call with each pattern of a blank where it reads, one at a time and all at once, and blanks where it
   writes: refused by 3, and no list differs afterwards, neither those that are written nor those that are read. */
static void blanks_stay(const double *p, size_t vertex, const uint32_t *f, uint8_t *file) {
    double before[12];
    uint32_t corners_before[12];
    uint8_t file_before[162];

    memcpy(before, p, sizeof before);
    memcpy(corners_before, f, sizeof corners_before);
    memcpy(file_before, file, sizeof file_before);
    mark();
    EXPECT(same(ozoravesh_admit(p, 12, f, 12), on_solid(3, vertex)));
    EXPECT(counts(ozoravesh_count_as_a(2, 1, 0.5, p, 12, f, 12), on_solid(3, vertex), 0));
    EXPECT(counts(ozoravesh_count_as_b(2, 1, 0.5, p, 12, f, 12), on_solid(3, vertex), 0));
    EXPECT(counts(ozoravesh_count_as_a(p[3], p[4], p[5], T, 12, F, 12), on(3, OZORAVESH_POINT, 0), 0));
    EXPECT(counts(ozoravesh_count_as_b(p[3], p[4], p[5], T, 12, F, 12), on(3, OZORAVESH_POINT, 0), 0));
    for (uint32_t code = 0; code < 3; code++) {
        EXPECT(makes(ozoravesh_operate(code, p, 12, f, 12, T, 12, F, 12, points, 400, corners, 800, origins, 300), on(3, OZORAVESH_A, vertex), 0, 0));
        EXPECT(makes(ozoravesh_operate(code, T, 12, F, 12, p, 12, f, 12, points, 400, corners, 800, origins, 300), on(3, OZORAVESH_B, vertex), 0, 0));
    }
    EXPECT(fills(ozoravesh_write(p, 12, f, 12, bytes, 8000), on_solid(3, vertex), 0));
    EXPECT(is_read(ozoravesh_read(file, 162, points, 400, corners, 800), on_solid(3, 1), 0, 0, 0));
    EXPECT(kept(0, 0, 0, 0));
    EXPECT(memcmp(before, p, sizeof before) == 0 && memcmp(corners_before, f, sizeof corners_before) == 0);
    EXPECT(memcmp(file_before, file, sizeof file_before) == 0);
}

static void blanks(void) {
    double p[12];
    uint8_t file[162];
    uint8_t input[165];
    uint8_t input_before[165];
    uint32_t a[12];
    uint32_t b[12];

    for (size_t k = 0; k < 8; k++) {
        memcpy(p, T, sizeof p);
        EXPECT(fills(ozoravesh_write(T, 12, F, 12, file, 162), plain(0), 162));
        /* The second vertex's flow: behind 26 bytes, a mark and a head. */
        memcpy(p + 4, BLANKS + k, sizeof p[0]);
        memcpy(file + 36, BLANKS + k, sizeof p[0]);
        blanks_stay(p, 1, F, file);

        memcpy(input, "D", 1);
        memcpy(input + 1, file, sizeof file);
        memcpy(input + 163, "EN", 2);
        memcpy(input_before, input, sizeof input);
        EXPECT(makes(ozoravesh_program(input, 165), on(3, OZORAVESH_A, 1), 0, 0));
        EXPECT(memcmp(input, input_before, sizeof input) == 0);
    }
    fill_with_blanks(p, sizeof p);
    blanks_stay(p, 0, F, file);

    /* A corner is any number: what is shown is copied as it is, and nothing else is touched. */
    fill_with_blanks(a, sizeof a);
    fill_with_blanks(b, sizeof b);
    mark();
    EXPECT(fills(ozoravesh_shown(a, 12, b, 12, 5, corners, 2), plain(8), 0));
    EXPECT(fills(ozoravesh_shown(a, 12, b, 12, 8, corners, 800), plain(0), 0));
    EXPECT(kept(0, 0, 0, 0));
    EXPECT(fills(ozoravesh_shown(a, 12, b, 12, 5, corners, 800), plain(0), 3));
    EXPECT(memcmp(corners, b + 3, 3 * sizeof b[0]) == 0 && kept(0, 3, 0, 0));
    EXPECT(marked(a, sizeof a, 0) && marked(b, sizeof b, 0));
}

/* A solid with one fault, and what every call says of it. */
typedef struct {
    const double *points;
    size_t points_length;
    const uint32_t *corners;
    size_t corners_length;
    uint32_t number;
    size_t place;
} fault;

/* The records of two lists, whatever they hold: how many bytes. */
static size_t put_records(uint8_t *to, fault s) {
    size_t at = 0;
    for (size_t i = 0; i + 3 <= s.points_length; i += 3) {
        memcpy(to + at, "VX", 2);
        memcpy(to + at + 2, s.points + i, 24);
        at += 26;
    }
    for (size_t i = 0; i + 3 <= s.corners_length; i += 3) {
        memcpy(to + at, "FC", 2);
        memcpy(to + at + 2, s.corners + i, 12);
        at += 14;
    }
    memcpy(to + at, "EN", 2);
    return at + 2;
}

/* The faulty solid as A and as B, and both faulty at once: A's is told. */
static void refused_operation(fault s, fault other) {
    EXPECT(makes(ozoravesh_operate(0, s.points, s.points_length, s.corners, s.corners_length, T, 12, F, 12, points, 400, corners, 800, origins, 300), on(s.number, OZORAVESH_A, s.place), 0, 0));
    EXPECT(makes(ozoravesh_operate(1, T, 12, F, 12, s.points, s.points_length, s.corners, s.corners_length, points, 400, corners, 800, origins, 300), on(s.number, OZORAVESH_B, s.place), 0, 0));
    EXPECT(makes(ozoravesh_operate(2, s.points, s.points_length, s.corners, s.corners_length, other.points, other.points_length, other.corners, other.corners_length, NULL, 0, NULL, 0, NULL, 0), on(s.number, OZORAVESH_A, s.place), 0, 0));
}

/* The same by files. A file has whole threes, so it cannot have 1. */
static void refused_file(fault s) {
    static uint8_t file[8000];
    static uint8_t input[16000];
    size_t n = put_records(file, s);

    EXPECT(is_read(ozoravesh_read(file, n, points, 400, corners, 800), on_solid(s.number, s.place), 0, 0, 0));
    input[0] = 'U';
    memcpy(input + 1, file, n);
    memcpy(input + 1 + n, "EN", 2);
    EXPECT(makes(ozoravesh_program(input, n + 3), on(s.number, OZORAVESH_A, s.place), 0, 0));
    memcpy(input + 1, "EN", 2);
    memcpy(input + 3, file, n);
    EXPECT(makes(ozoravesh_program(input, n + 3), on(s.number, OZORAVESH_B, s.place), 0, 0));
}

/* Every number on one solid, with every who: A, B, the only solid, and the point before it. */
static void refusals(void) {
    static const double many[387];
    static double blanks[12], far[12];
    static const double seven[21] = {0, 0, 0, 4, 0, 0, 0, 4, 0, 0, 0, 4, 1, 1, 1, 2, 2, 2, 3, 3, 1};
    static const uint32_t high[12] = {0, 2, 1, 0, 1, 4, 3, 3, 2, 1, 2, 3};
    static const uint32_t twice[12] = {0, 2, 1, 0, 1, 3, 0, 3, 0, 1, 2, 9};
    static const uint32_t both[12] = {0, 2, 1, 0, 1, 3, 0, 3, 2, 7, 7, 3};
    /* Two facets that close each other, then T without its last. */
    static const uint32_t opened[15] = {4, 5, 6, 4, 6, 5, 0, 2, 1, 0, 1, 3, 0, 3, 2};
    const fault faults[] = {
        {T, 11, F, 12, 1, 0}, {many, 387, NULL, 0, 2, 0}, {blanks, 12, F, 12, 3, 2}, {far, 12, F, 12, 4, 3}, {T, 12, high, 12, 10, 1},
        {T, 12, twice, 12, 11, 2}, {T, 12, both, 12, 10, 3}, {seven, 21, opened, 15, 6, 2}};
    const size_t number = sizeof faults / sizeof faults[0];

    memcpy(blanks, T, sizeof T);
    blanks[8] = blank();
    blanks[9] = blank();
    blanks[0] = above(1048576.0);
    memcpy(far, T, sizeof T);
    far[10] = -above(1048576.0);
    mark();
    for (size_t i = 0; i < number; i++) {
        fault s = faults[i];
        EXPECT(same(ozoravesh_admit(s.points, s.points_length, s.corners, s.corners_length), on_solid(s.number, s.place)));
        EXPECT(counts(ozoravesh_count_as_a(2, 1, 0.5, s.points, s.points_length, s.corners, s.corners_length), on_solid(s.number, s.place), 0));
        EXPECT(counts(ozoravesh_count_as_b(2, 1, 0.5, s.points, s.points_length, s.corners, s.corners_length), on_solid(s.number, s.place), 0));
        EXPECT(counts(ozoravesh_count_as_a(2, 1, blank(), s.points, s.points_length, s.corners, s.corners_length), on(3, OZORAVESH_POINT, 0), 0));
        EXPECT(counts(ozoravesh_count_as_b(above(1048576.0), 1, 0, s.points, s.points_length, s.corners, s.corners_length), on(4, OZORAVESH_POINT, 0), 0));
        EXPECT(fills(ozoravesh_write(s.points, s.points_length, s.corners, s.corners_length, bytes, 1), on_solid(s.number, s.place), 0));
        refused_operation(s, faults[(i + 1) % number]);
        if (s.number != 1) {
            refused_file(s);
        }
    }
    EXPECT(kept(0, 0, 0, 0));
}

/* A row with these bounds: low x, high x, low y, high y, low z, high z. */
static void put_row(uint8_t row[53], unsigned unit, const double bounds[6], uint8_t flags) {
    memcpy(row, "RW", 2);
    row[2] = (uint8_t)(unit & 255u);
    row[3] = (uint8_t)(unit >> 8);
    memcpy(row + 4, bounds, 48);
    row[52] = flags;
}

static int boxes_as(ozoravesh_boxed b, ozoravesh_answer answer, size_t vertices, size_t facets, unsigned unit) {
    return same(b.answer, answer) && b.vertices == vertices && b.facets == facets && b.unit == unit;
}

/* Does the row of these bounds, with unit 4660 and room for all, give this refusal? */
static int row_refused(const double bounds[6], uint8_t flags, uint32_t number) {
    uint8_t row[53];
    put_row(row, 4660, bounds, flags);
    return boxes_as(ozoravesh_box(row, 53, points, 24, corners, 36), plain(number), 0, 0, 0);
}

/* Each refusal of a row at each bound, alone and beside one that comes later, at another bound. */
static void rows_refused(void) {
    static const double good[6] = {-1, 1, -2, 2, -3, 3};
    double b[6];

    for (size_t i = 0; i < 6; i++) {
        memcpy(b, good, sizeof b);
        memcpy(b + i, BLANKS + i, sizeof b[0]);
        EXPECT(row_refused(b, 0, 3));
        b[5 - i] = above(1048576.0);
        EXPECT(row_refused(b, 0, 3));
        memcpy(b, good, sizeof b);
        b[i] = i % 2 == 0 ? -above(1048576.0) : above(1048576.0);
        EXPECT(row_refused(b, 0, 4));
        EXPECT(row_refused(b, (uint8_t)(1u << i), 4));
        memcpy(b, good, sizeof b);
        EXPECT(row_refused(b, (uint8_t)(1u << i), 12));
        b[(i + 2) % 6] = (i + 2) % 2 == 0 ? 3 : -3;
        EXPECT(row_refused(b, (uint8_t)(1u << i), 12));
        EXPECT(row_refused(b, 0, 13));
        EXPECT(row_refused(b, 64, 9) && row_refused(b, 128, 9));
    }
    memcpy(b, good, sizeof b);
    b[2] = 2;
    EXPECT(row_refused(b, 0, 13));
    b[2] = -0.0, b[3] = 0.0;
    EXPECT(row_refused(b, 0, 13));
    b[2] = blank(), b[3] = -1048576.0;
    EXPECT(row_refused(b, 4, 13));
    b[2] = 1048576.0, b[3] = blank();
    EXPECT(row_refused(b, 8, 13));
}

static void boxes(void) {
    static const double bounds[6] = {25, 35, 30, 0, 0, 0};
    static const double expected[24] = {25, 30, -1048576, 35, 30, -1048576, 25, 1048576, -1048576, 35, 1048576, -1048576,
                                        25, 30, 1048576,  35, 30, 1048576,  25, 1048576, 1048576,  35, 1048576, 1048576};
    static const uint32_t facets[36] = {0, 6, 2, 0, 4, 6, 1, 3, 7, 1, 7, 5, 0, 1, 5, 0, 5, 4,
                                        2, 7, 3, 2, 6, 7, 0, 3, 1, 0, 2, 3, 4, 5, 7, 4, 7, 6};
    uint8_t row[54];
    uint8_t before[54];

    /* The worked example's outage: flow open above, output open both ways, with blanks of three kinds. */
    put_row(row, 513, bounds, 0x38);
    memcpy(row + 28, BLANKS, 24);
    row[53] = 0;
    memcpy(before, row, sizeof before);
    mark();
    EXPECT(boxes_as(ozoravesh_box(NULL, 0, points, 400, corners, 800), plain(9), 0, 0, 0));
    EXPECT(boxes_as(ozoravesh_box(row, 52, points, 400, corners, 800), plain(9), 0, 0, 0));
    EXPECT(boxes_as(ozoravesh_box(row, 54, points, 400, corners, 800), plain(9), 0, 0, 0));
    EXPECT(boxes_as(ozoravesh_box(row, 53, points, 23, corners, 36), plain(8), 0, 0, 0));
    EXPECT(boxes_as(ozoravesh_box(row, 53, points, 24, corners, 35), plain(8), 0, 0, 0));
    EXPECT(boxes_as(ozoravesh_box(row, 53, NULL, 0, NULL, 0), plain(8), 0, 0, 0));
    row[0] = 'r';
    EXPECT(boxes_as(ozoravesh_box(row, 53, points, 24, corners, 36), plain(9), 0, 0, 0));
    row[0] = 'R', row[1] = 'V';
    EXPECT(boxes_as(ozoravesh_box(row, 53, points, 24, corners, 36), plain(9), 0, 0, 0));
    row[1] = 'W';
    rows_refused();
    EXPECT(kept(0, 0, 0, 0));
    EXPECT(boxes_as(ozoravesh_box(row, 53, points, 24, corners, 36), plain(0), 8, 12, 513));
    EXPECT(memcmp(points, expected, sizeof expected) == 0 && memcmp(corners, facets, sizeof facets) == 0 && kept(24, 36, 0, 0));
    EXPECT(memcmp(row, before, sizeof before) == 0);

    /* It is a solid as any other; as B it holds a point where low < c and c <= high. */
    EXPECT(same(ozoravesh_admit(points, 24, corners, 36), plain(0)));
    EXPECT(counts(ozoravesh_count_as_b(30, 40, 9, points, 24, corners, 36), plain(0), 1));
    EXPECT(counts(ozoravesh_count_as_b(25, 40, 9, points, 24, corners, 36), plain(0), 0));
    EXPECT(counts(ozoravesh_count_as_b(35, 40, 9, points, 24, corners, 36), plain(0), 1));
    EXPECT(counts(ozoravesh_count_as_b(above(35), 40, 9, points, 24, corners, 36), plain(0), 0));
    EXPECT(counts(ozoravesh_count_as_b(30, 30, 9, points, 24, corners, 36), plain(0), 0));
    EXPECT(counts(ozoravesh_count_as_b(30, above(30), 9, points, 24, corners, 36), plain(0), 1));
    EXPECT(counts(ozoravesh_count_as_b(30, 1048576, 1048576, points, 24, corners, 36), plain(0), 1));
    EXPECT(counts(ozoravesh_count_as_b(30, 40, -1048576, points, 24, corners, 36), plain(0), 0));
    EXPECT(counts(ozoravesh_count_as_a(30, 40, -1048576, points, 24, corners, 36), plain(0), 1));
}

int main(void) {
    admission();
    containment();
    showing();
    files();
    operations();
    program();
    refusals();
    blanks();
    boxes();
    if (failed != 0) {
        printf("calls: %d of %d do not hold\n", failed, checks);
        return 1;
    }
    printf("calls: all %d hold\n", checks);
    return 0;
}
