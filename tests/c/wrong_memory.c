/* A joiner over a node's memory: must not compile. */
#include <nbt.h>

static union nbt_node_memory memory;
static struct nbt_joiner joiner = {&memory};

int main(void) {
    nbt_joiner_start(&joiner);
    return 0;
}
