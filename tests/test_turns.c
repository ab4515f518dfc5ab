/* Which refusal is named where several apply. */
#include "faults.h"
#include "spoiled.h"
#include "tally.h"

/* Each link gives its number before the next is looked at, whatever the next one's number is. */
static void link_turns(void)
{
    static const struct {
        int number, a, b;
    } bad[] = {{3, N, 0}, {3, 0, N}, {4, 2, 2}, {20, 0, 1}, {20, 1, 0}};
    for (int i = 0; i < 5; i++) {
        for (int j = 0; j < 5; j++) {
            base();
            put_link(2, bad[i].a, bad[i].b);
            put_link(4, bad[j].a, bad[j].b);
            put_number(order_at(0), N);
            expect(bad[i].number, "two links at fault", 10 * i + j);
        }
    }
}

int main(void)
{
    faults_together(1);
    link_turns();
    return tally_end();
}
