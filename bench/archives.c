/* Two archives of the proved library in one run: how long each call takes with the second against the first.
 *
 *     archives BEFORE.so AFTER.so [NAME PLAN STANDS]..
 *
 * A plan is a plan file; stands are a file of lines x,y below one that names the columns. Two strips of 2 and 13 cells
 * come first. In a round each call is made once with each archive, the one right after the other and in turns; a figure
 * is a median. An archive of version 8, in which each call with a stand has two functions, can be either of the two.
 * What both answer is compared: an archive that answers otherwise than the other ends the run.
 */
#include <dlfcn.h>
#include <stdbool.h>
#include <stdint.h>
#include <stdio.h>
#include <stdlib.h>
#include <string.h>
#include <time.h>

#define LISTS const int32_t *, size_t, const uint16_t *, size_t, const uint16_t *, size_t, uint16_t
#define PLAN plan->corners, plan->corner_numbers, plan->cells, plan->cell_numbers, plan->doors, plan->door_numbers, plan->kind
#define REPLY reply, 7
enum { MOST_CORNERS = 2048, MOST_ROUNDS = 20000, STANDS = 32, CALLS = 6 };
static const char *const CALL[CALLS] = {"check", "find", "list", "draw", "change", "32 stands"};

struct archive {
    void (*check)(LISTS, uint64_t *, size_t);
    void (*find)(LISTS, uint64_t, const double *, size_t, uint64_t *, size_t);
    void (*list)(LISTS, uint64_t, const double *, size_t, bool, uint64_t, bool, uint64_t, uint16_t *, size_t, uint64_t *, size_t);
    void (*draw)(LISTS, uint64_t, const double *, size_t, bool, uint64_t, float *, size_t, uint64_t *, size_t);
    void (*change)(LISTS, uint64_t, const double *, size_t, bool, uint64_t, const uint16_t *, size_t, size_t, bool, uint16_t *,
                   size_t, uint64_t *, size_t);
    void (*list_stands)(LISTS, uint64_t, const double *, size_t, bool, uint64_t, bool, uint64_t, uint16_t *, size_t, uint64_t *,
                        size_t, uint64_t *, size_t);
    void (*read)(const uint8_t *, size_t, int32_t *, size_t, uint16_t *, size_t, uint16_t *, size_t, uint64_t *, size_t);
    /* version 8: a point is two numbers */
    void (*find_point)(LISTS, uint64_t, double, double, uint64_t *, size_t);
    void (*list_point)(LISTS, uint64_t, double, double, bool, uint64_t, bool, uint64_t, uint16_t *, size_t, uint64_t *, size_t);
    void (*draw_point)(LISTS, uint64_t, double, double, bool, uint64_t, float *, size_t, uint64_t *, size_t);
    void (*change_point)(LISTS, uint64_t, double, double, bool, uint64_t, const uint16_t *, size_t, size_t, bool, uint16_t *,
                         size_t, uint64_t *, size_t);
};

struct plan {
    int32_t corners[2 * MOST_CORNERS];
    uint16_t cells[17 * 3000], doors[64];
    size_t corner_numbers, cell_numbers, door_numbers;
    uint16_t kind;
};

/* What a call has left: its reply, and the table or the offsets. */
struct left {
    uint64_t reply[7], replies[3 * STANDS];
    uint16_t table[4 * MOST_CORNERS * STANDS];
    float offsets[4 * MOST_CORNERS];
};

static void end(const char *why, const char *what) {
    fprintf(stderr, "archives: %s%s\n", why, what);
    exit(2);
}

static void *found(void *object, const char *name, bool needed) {
    void *function = dlsym(object, name);
    if (!function && needed) end("a function is missing: ", name);
    return function;
}

static void load(struct archive *a, const char *path) {
    void *object = dlopen(path, RTLD_NOW | RTLD_LOCAL);
    if (!object) end("cannot be loaded: ", dlerror());
    a->check = found(object, "manopluea_check", true);
    a->read = found(object, "manopluea_read", true);
    a->list_stands = found(object, "manopluea_list_stands", true);
    a->list = found(object, "manopluea_list", false);
    a->find = found(object, "manopluea_find", a->list);
    a->draw = found(object, "manopluea_draw", a->list);
    a->change = found(object, "manopluea_change", a->list);
    a->find_point = found(object, "manopluea_find_point", !a->list);
    a->list_point = found(object, "manopluea_list_point", !a->list);
    a->draw_point = found(object, "manopluea_draw_point", !a->list);
    a->change_point = found(object, "manopluea_change_point", !a->list);
}

/* One call; `given` is the true list of the stand, of so many numbers. */
static void make(const struct archive *a, int call, const struct plan *plan, const double *stand, const double *stands,
                 const uint16_t *given, size_t length, size_t door, struct left *left) {
    const size_t table = 4 * MOST_CORNERS;
    uint64_t *reply = left->reply;
    double x = stand[1], y = stand[2];
    switch (call) {
    case 0:
        a->check(PLAN, REPLY);
        break;
    case 1:
        if (a->find) a->find(PLAN, 0, stand, 3, REPLY);
        else a->find_point(PLAN, 0, x, y, REPLY);
        break;
    case 2:
        if (a->list) a->list(PLAN, 0, stand, 3, false, 0, false, 0, left->table, table, REPLY);
        else a->list_point(PLAN, 0, x, y, false, 0, false, 0, left->table, table, REPLY);
        break;
    case 3:
        if (a->draw) a->draw(PLAN, 0, stand, 3, false, 0, left->offsets, table, REPLY);
        else a->draw_point(PLAN, 0, x, y, false, 0, left->offsets, table, REPLY);
        break;
    case 4:
        if (a->change) a->change(PLAN, 0, stand, 3, false, 0, given, length, door, true, left->table, table, REPLY);
        else a->change_point(PLAN, 0, x, y, false, 0, given, length, door, true, left->table, table, REPLY);
        break;
    default:
        a->list_stands(PLAN, 0, stands, 3 * STANDS, false, 0, false, 0, left->table, table * STANDS, left->replies, 3 * STANDS,
                       REPLY);
    }
}

static double nanoseconds(void) {
    struct timespec t;
    clock_gettime(CLOCK_MONOTONIC, &t);
    return 1e9 * (double)t.tv_sec + (double)t.tv_nsec;
}

static int by_size(const void *a, const void *b) {
    double x = *(const double *)a, y = *(const double *)b;
    return (x > y) - (x < y);
}

static void measure(const struct archive *both, const char *name, const struct plan *plan, const double *stands) {
    static struct left left[2];
    static uint16_t given[4 * MOST_CORNERS];
    static double took[2][MOST_ROUNDS];
    const double *stand = stands;
    uint64_t most = 0;
    size_t length = 0, door = 0;
    /* the stand that crosses most lines, its list, and a door that is seen from it */
    for (int i = 0; i < STANDS; i++) {
        make(&both[0], 2, plan, stands + 3 * i, stands, given, 0, 0, &left[0]);
        if (left[0].reply[0]) end("a stand is refused on ", name);
        if (left[0].reply[3] >= most) {
            most = left[0].reply[3];
            stand = stands + 3 * i;
            length = 4 * left[0].reply[2];
            memcpy(given, left[0].table, length * sizeof *given);
        }
    }
    for (door = 0; door < plan->door_numbers; door++) {
        make(&both[0], 4, plan, stand, stands, given, length, door, &left[0]);
        if (left[0].reply[0] == 0 && (4 * left[0].reply[2] != length || memcmp(given, left[0].table, length * sizeof *given))) break;
    }
    printf("%s: %zu cells, %zu rows, %llu crossings\n", name, (size_t)(plan->kind == 2 ? plan->cell_numbers / 6 : 0), length / 4,
           (unsigned long long)most);
    for (int call = 0; call < CALLS; call++) {
        if (call == 4 && door == plan->door_numbers) continue;
        int rounds = 0;
        double until = nanoseconds() + 2e9;
        while (rounds < MOST_ROUNDS && (rounds < 51 || nanoseconds() < until)) {
            for (int turn = 0; turn < 2; turn++) {
                int which = (rounds + turn) % 2;
                double began = nanoseconds();
                make(&both[which], call, plan, stand, stands, given, length, door, &left[which]);
                took[which][rounds] = nanoseconds() - began;
            }
            if (rounds == 0 && (memcmp(left[0].reply, left[1].reply, sizeof left[0].reply) || left[0].reply[0]))
                end("the two do not answer alike, or refuse: ", CALL[call]);
            rounds++;
        }
        for (int which = 0; which < 2; which++) qsort(took[which], (size_t)rounds, sizeof(double), by_size);
        double before = took[0][rounds / 2], after = took[1][rounds / 2];
        printf("    %-10s %12.0f ns %12.0f ns   %.3f\n", CALL[call], before, after, after / before);
    }
    fflush(stdout);
}

static void strip(struct plan *plan, double *stands, int n) {
    memset(plan, 0, sizeof *plan);
    plan->kind = 2;
    for (int i = 0; i < n + 2; i++) {
        plan->corners[plan->corner_numbers++] = 500 * i;
        plan->corners[plan->corner_numbers++] = 1000 * (i % 2);
    }
    for (int i = 0; i < n; i++) {
        uint16_t before = i ? (uint16_t)(i - 1) : 65535, after = i + 1 < n ? (uint16_t)(i + 1) : 65535;
        /* the side between corners i and i + 1 leads back, the one between i + 1 and i + 2 on */
        uint16_t up[6] = {(uint16_t)i, (uint16_t)(i + 2), (uint16_t)(i + 1), 65535, after, before};
        uint16_t down[6] = {(uint16_t)i, (uint16_t)(i + 1), (uint16_t)(i + 2), before, after, 65535};
        memcpy(plan->cells + plan->cell_numbers, i % 2 ? down : up, sizeof up);
        plan->cell_numbers += 6;
    }
    plan->doors[plan->door_numbers++] = 1;
    for (int i = 0; i < STANDS; i++) {
        stands[3 * i] = -1;
        stands[3 * i + 1] = 500 + i;
        stands[3 * i + 2] = 500;
    }
}

static void read_floor(const struct archive *a, struct plan *plan, double *stands, const char *file, const char *list) {
    static uint8_t bytes[1 << 17];
    uint64_t reply[7];
    FILE *f = fopen(file, "rb");
    if (!f) end("cannot be read: ", file);
    size_t length = fread(bytes, 1, sizeof bytes, f);
    fclose(f);
    a->read(bytes, length, plan->corners, 2 * MOST_CORNERS, plan->cells, 17 * 3000, plan->doors, 64, REPLY);
    if (reply[0]) end("is refused: ", file);
    plan->corner_numbers = 2 * reply[2];
    plan->door_numbers = reply[4];
    plan->kind = (uint16_t)reply[5];
    plan->cell_numbers = reply[6];
    f = fopen(list, "r");
    if (!f || fscanf(f, "%*[^\n]") != 0) end("cannot be read: ", list);
    for (int i = 0; i < STANDS; i++) {
        stands[3 * i] = -1;
        if (fscanf(f, " %lf,%lf", &stands[3 * i + 1], &stands[3 * i + 2]) != 2) end("has fewer than 32 stands: ", list);
    }
    fclose(f);
}

int main(int count, char **words) {
    static struct archive both[2];
    static struct plan plan;
    static double stands[3 * STANDS];
    if (count < 3 || count % 3 != 0) end("usage: archives BEFORE.so AFTER.so [NAME PLAN STANDS]..", "");
    load(&both[0], words[1]);
    load(&both[1], words[2]);
    printf("call: before, after, after/before\n");
    strip(&plan, stands, 2);
    measure(both, "strip of 2", &plan, stands);
    strip(&plan, stands, 13);
    measure(both, "strip of 13", &plan, stands);
    for (int i = 3; i < count; i += 3) {
        read_floor(&both[0], &plan, stands, words[i + 1], words[i + 2]);
        measure(both, words[i], &plan, stands);
    }
}
