#include <stdio.h>
#include <string.h>
#include <subgraph.h>

int main(void) {
    const char pattern[] = "3  1 1  1 2  0"; /* a path: 0 - 1 - 2 */
    const char target[] = "4  1 1  1 2  1 3  1 0"; /* a cycle of four */
    const subgraph_pair less[] = {{0, 2}}; /* the image of 0 before that of 2 */
    subgraph_options options = SUBGRAPH_OPTIONS;
    subgraph_report report;
    uint32_t map[1024];
    uint64_t p;
    uint32_t status = subgraph_decide((const uint8_t *)pattern, strlen(pattern), (const uint8_t *)target,
                                      strlen(target), &options, less, 1, map, 1024, &report);
    if (status != SUBGRAPH_YES) return (int)status;
    for (p = 0; p < report.count; p++) printf("%d -> %u\n", (int)p, (unsigned)map[p]);
    return 0;
}
