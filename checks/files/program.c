/* A program that calls checks/files/library.c: checks/files/make.sh compiles it for several machines. */
extern int function(int), versioned(int), calling(int);
extern int data;

static int counted;

static __attribute__((noinline)) int twice(int given) {
    counted += given;
    return function(given) + function(counted);
}

__attribute__((noinline)) int many(const char *text) {
    int sum = 0;
    for (; *text; text++) sum = sum * 31 + twice(*text) + data;
    return sum;
}

__attribute__((noinline)) int most(int first, int second) { return first > second ? versioned(first) : calling(second); }

void _start(void) {
    static const char *const texts[] = {"made", "for", "comparisons"};
    for (unsigned index = 0; index < sizeof texts / sizeof *texts; index++) counted = most(many(texts[index]), counted);
    for (;;) counted++;
}
