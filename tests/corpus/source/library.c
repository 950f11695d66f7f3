/* A shared object: functions and data to be found by name, one function that is asked for from elsewhere. */

extern int from_elsewhere(int);
int exported_word = 3;
static int inner_word = 4;
int *exported_place = &inner_word;

int alpha(int a) { return a + exported_word; }
int beta(int a) { return alpha(a) * inner_word; }
int gamma_(int a) { return from_elsewhere(beta(a)); }
int delta(void) { return *exported_place; }
__attribute__((visibility("protected"))) int epsilon(void) { return 5; }
__attribute__((weak)) int zeta(void) { return 6; }
