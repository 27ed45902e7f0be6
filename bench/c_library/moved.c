/* Threads use one node in turn, under a lock, and each a node of its own without one; the first thread lets all go. To be run
 * where races are looked for. */
#include <distnode.h>
#include <pthread.h>
#include <stdio.h>
#include <stdlib.h>

#define TEXT(s) (const uint8_t *)(s), sizeof(s) - 1
#define NEED(c) need((c), __LINE__)
enum { THREADS = 4, TURNS = 25 };

static dn_node shared = DN_NODE_INIT, own[THREADS];
static pthread_mutex_t lock = PTHREAD_MUTEX_INITIALIZER;

static void need(uint32_t code, int line) {
    if (code) { fprintf(stderr, "moved: code %u at line %d\n", code, line); exit(1); }
}

/* An end comes and goes. */
static void turn(dn_node *node) {
    dn_reply reply;
    NEED(dn_node_incoming(node, &reply));
    NEED(dn_node_lost(node, reply.id, DN_WHY_ENDED, &reply));
}

static void *works(void *place) {
    dn_node *mine = place;
    for (int i = 0; i < TURNS; i++) {
        turn(mine);
        pthread_mutex_lock(&lock);
        turn(&shared);
        pthread_mutex_unlock(&lock);
    }
    return NULL;
}

int main(void) {
    pthread_t threads[THREADS];
    dn_setup setup = {.flags = 0x403070f94, .creation = 6};
    NEED(dn_node_new(&shared, TEXT("a@127.0.0.1"), TEXT("secretCookie"), &setup));
    for (int i = 0; i < THREADS; i++) {
        NEED(dn_node_new(&own[i], TEXT("b@127.0.0.1"), TEXT("secretCookie"), &setup));
        if (pthread_create(&threads[i], NULL, works, &own[i])) return 1;
    }
    for (int i = 0; i < THREADS; i++) {
        pthread_join(threads[i], NULL);
        NEED(dn_node_free(&own[i]));
    }
    NEED(dn_node_free(&shared));
    return 0;
}
