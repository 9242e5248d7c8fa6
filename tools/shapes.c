// Rows of six shapes rewritten as a C program would do it: sscanf, snprintf and a comparison, printf. The word names the shape.
#include <stdio.h>
#include <stdlib.h>
#include <string.h>

#define FORTY(f) f(0) f(1) f(2) f(3) f(4) f(5) f(6) f(7) f(8) f(9) f(10) f(11) f(12) f(13) f(14) f(15) f(16) f(17) f(18) f(19) \
    f(20) f(21) f(22) f(23) f(24) f(25) f(26) f(27) f(28) f(29) f(30) f(31) f(32) f(33) f(34) f(35) f(36) f(37) f(38) f(39)
#define PLACE(i) , &v[i]
#define VALUE(i) , v[i]
#define BACKWARD(i) , v[39 - i]
#define TEN "%u %u %u %u %u %u %u %u %u %u"
#define ALL TEN " " TEN " " TEN " " TEN

static char again[65536];

static int same(const char *line) { return strcmp(again, line) == 0; }

static int octal(const char *line) {
    unsigned a;
    unsigned long b;
    if (sscanf(line, "%o %lo", &a, &b) != 2) return 0;
    snprintf(again, sizeof again, "%o %lo", a, b);
    return same(line) && printf("%d %lu\n", (int)a, b) > 0;
}

static int upper(const char *line) {
    unsigned a;
    unsigned long b;
    if (sscanf(line, "%8X-%lX", &a, &b) != 2) return 0;
    snprintf(again, sizeof again, "%08X-0X%lX", a, b);
    return same(line) && printf("%u %lu\n", a, b) > 0;
}

static int touching(const char *line) {
    unsigned a, b, c;
    if (sscanf(line, "%5u%5u%8x", &a, &b, &c) != 3) return 0;
    snprintf(again, sizeof again, "%05u%05u%08x", a, b, c);
    return same(line) && printf("%u %u %u\n", c, b, a) > 0;
}

static int forty(const char *line) {
    unsigned v[40];
    if (sscanf(line, ALL FORTY(PLACE)) != 40) return 0;
    snprintf(again, sizeof again, ALL FORTY(VALUE));
    return same(line) && printf(ALL "\n" FORTY(BACKWARD)) > 0;
}

static int words(const char *line) {
    char a[1024], b[1024], c[1024];
    if (sscanf(line, "%1023[^ ,], %1023[^ :]: %1023s", a, b, c) != 3) return 0;
    snprintf(again, sizeof again, "%s, %s: %s", a, b, c);
    return same(line) && printf("%s %s %s\n", c, a, b) > 0;
}

static int widths(const char *line) {
    unsigned a;
    long long b;
    char c[1024];
    if (sscanf(line, "%u %lld %1023s", &a, &b, c) != 3) return 0;
    snprintf(again, sizeof again, "%u %lld %s", a, b, c);
    return same(line) && printf("%10u|%-12lld|%16s\n", a, b, c) > 0;
}

static const struct { const char *name; int (*rewrite)(const char *); } SHAPES[] = {
    {"octal", octal}, {"upper", upper}, {"touching", touching}, {"forty", forty}, {"words", words}, {"widths", widths},
};

int main(int count, char **given) {
    char *line = NULL;
    size_t room = 0;
    ssize_t length;
    for (size_t i = 0; count == 2 && i < sizeof SHAPES / sizeof *SHAPES; i++) {
        if (strcmp(SHAPES[i].name, given[1])) continue;
        for (int header = 0; header < 4; header++) if (getline(&line, &room, stdin) < 0) return 1;
        while ((length = getline(&line, &room, stdin)) >= 0) {
            if (length && line[length - 1] == '\n') line[length - 1] = 0;
            if (!SHAPES[i].rewrite(line)) return 1;
        }
        return 0;
    }
    return 2;
}
