/* Writes a byte, and ends with 3 if it cannot. A write to a closed pipe ends it by a signal instead, where it was
   started with that signal ignored and something between, an emulator for example, did not keep it so. */
#include <unistd.h>

int main(void)
{
    return write(1, "", 1) == 1 ? 0 : 3;
}
