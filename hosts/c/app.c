/* cc app.c $(pkg-config --cflags --libs tickdrizzle) */
#include <stdio.h>
#include <tickdrizzle.h>

int main(void)
{
    const uint8_t swap[] = {1, 2, 2, 1};
    struct tickdrizzle_table table = {swap, sizeof swap, 2};
    printf("the period of 2 is %zu\n",
           tickdrizzle_table_index_period(table, 2).period);
}
