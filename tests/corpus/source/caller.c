/* A position-independent program that needs the shared object. It is never run. */

extern int alpha(int);
extern int delta(void);
extern int exported_word;
int from_elsewhere(int a) { return a; }
static int buffer[100];

void _start(void)
{
    buffer[0] = alpha(delta()) + exported_word;
    for (;;) {
    }
}
