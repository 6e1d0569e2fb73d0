/* A library with each kind of symbol and relocation that a compiler makes: checks/files/make.sh compiles it for several machines. */
extern int undefined(int);
extern int weak_undefined(int) __attribute__((weak));
extern int undefined_data;

static int local_data = 7;
int data = 8;
int zeros[16];
const int constant = 9;
int common;
_Thread_local int of_thread = 10;
_Thread_local int zeros_of_thread[4];
__attribute__((visibility("hidden"))) int hidden_data = 11;
__attribute__((visibility("protected"))) int protected_data = 12;
__attribute__((weak)) int weak_data = 13;
int accented __asm__("donn\303\251e") = 14;

static __attribute__((noinline)) int local_function(int given) { return given * local_data + constant; }
int function(int given) { return local_function(given) + data + zeros[given & 15] + common; }
__attribute__((weak)) int weak_function(int given) { return given + weak_data + of_thread + zeros_of_thread[given & 3]; }
__attribute__((visibility("hidden"))) int hidden_function(int given) { return given ^ hidden_data; }
int calling(int given) { return hidden_function(given) + undefined(given) + (weak_undefined ? weak_undefined(given) : undefined_data); }
int aliased(int given) __attribute__((alias("function")));

/* Pointers, which are relocated: to a function, into an array and before its start, to what is elsewhere, and to what may be missing. */
int (*const functions[])(int) = {function, weak_function, undefined, weak_undefined};
int *const places[] = {&data, zeros + 3, &undefined_data, &local_data, &protected_data};
char *const before = (char *)&undefined_data - 4;

#ifdef VERSIONS
int older(int given) { return given + 1; }
int newer(int given) { return given + 2; }
__asm__(".symver older, versioned@MADE_1");
__asm__(".symver newer, versioned@@MADE_2");
#endif

#ifdef IFUNC
static int (*resolve(void))(int) { return local_function; }
int indirect(int given) __attribute__((ifunc("resolve")));
__asm__(".type unique, %gnu_unique_object\n.data\nunique: .zero 4\n.size unique, 4\n.text");
#endif

__asm__(".globl absolute\n.hidden absolute\n.set absolute, 0x1234");
__asm__(".section .note.made, \"a\", %note\n.balign 4\n.long 5, 4, 1\n.asciz \"made\"\n.balign 4\n.long 7\n.text");
