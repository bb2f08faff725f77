/* What a program that nothing proved does where a check fails: it says on standard error which one and in which function, and ends by SIGABRT. */
long write(int, const void *, unsigned long);
_Noreturn void abort(void);

static void say(const char *text) {
    unsigned long size = 0;
    while (text[size]) size++;
    write(2, text, size);
}

__attribute__((cold, visibility("hidden"))) _Noreturn void fault(const char *what, const char *where) {
    say("mtp2: stopped at a fault that a proof excludes: ");
    say(what);
    say(" in ");
    say(where);
    say("\n");
    abort();
}
