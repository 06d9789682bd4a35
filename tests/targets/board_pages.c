/* board_pages.c - the reference pages on a board without a command line: PAGES are the files' names on the host. */
#define main pages_main
#include "../c/pages.c"
#undef main

int main(void)
{
    char *arguments[] = {"pages", "1", PAGES};
    return pages_main(sizeof arguments / sizeof arguments[0], arguments);
}
