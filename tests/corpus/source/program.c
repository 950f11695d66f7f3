/* A program without a C library, for any machine: code, constants, data, memory that starts as zeros, calls and tables of
 * addresses, so that its object file has relocations and its program has several segments. It is never run. */

static const char letters[] = "loadplan";
static int calls;
int data_word = 7;
int zero_words[64];
const char *const places[] = { letters, letters + 4 };

__attribute__((noinline)) static int local_function(int a)
{
    calls += 1;
    return a * data_word + zero_words[a & 63];
}

__attribute__((weak)) int weak_function(int a)
{
    return local_function(a) + places[a & 1][0];
}

__attribute__((visibility("hidden"))) int hidden_function(int a)
{
    return weak_function(a + 1);
}

void _start(void)
{
    zero_words[0] = hidden_function(data_word);
    for (;;) {
    }
}
