/* The paper's sequences to hold it against, starred and unstarred, with their stated results. */
#include "sequences.h"

static const Sequence sequences[] = {
    {"p1", ONE_THREAD, 1, 0, 0, "UQS 1 threads 1 nodes 2 events 10 endings 4\n0 0 -\n1 0 -\n2 0 -\n3 0 7\n", 0, 0, 0, 0, 0},
    {"p2", ONE_THREAD, 2, 0, 0, "UQS 1 threads 1 nodes 2 events 11 endings 1\n0 0 7\n", 0, 0, 0, 0, 0},
    {"p3", ONE_THREAD, 3, 0, 0, "UQS 1 threads 1 nodes 2 events 16 endings 2\n0 0 7\n1 1 -\n", 11, DONE, 0, 0, 0},
    {"p4", ONE_THREAD, 4, 0, 0, "UQS 1 threads 1 nodes 2 events 18 endings 1\n0 1 -\n", 0, 0, 0, 0, 0},
    {"p5", ONE_THREAD, 5, 0, 0, "UQS 1 threads 1 nodes 2 events 21 endings 1\n0 1 -\n", 20, FULL, 0, 0, 0},
    {"p6", TWO_THREADS, 6, 0, 0, "UQS 1 threads 2 nodes 3 events 24 endings 3\n0 0 6\n1 0 6\n2 0 6\n", 23, DONE, 0, 0, 0},
    {"p7", TWO_THREADS, 7, 0, 0, "UQS 1 threads 2 nodes 3 events 25 endings 4\n0 0 6\n1 0 6\n2 0 6\n3 0 5 6\n", 0, 0, 0, 0, 0},
    {"p8", HEAD_ONLY, 2, 1, 5, "UQS 1 threads 1 nodes 2 events 0 endings 2\n0 5 -\n1 5 -\n", 0, 0, 0, 0, 0},
    {"p9", HEAD_ONLY, 2, 1, 0, "UQS 1 threads 1 nodes 2 events 0 endings 1\n0 0 -\n", 0, 0, 0, 0, 0},
    {"p10", WORN, 1, 0, 0, "UQS 1 threads 1 nodes 2 events 8 endings 4\n0 4294967295 -\n", 7, WORN_OUT, 0, 0, 0},
    {"nodes-1", HEAD_ONLY, 1, 1, 0, "refused 3 at 0\n", 0, 0, 0, 0, 0},
    {"nodes-2", HEAD_ONLY, 2, 8, 0, "UQS 1 threads 8 nodes 2 events 0 endings 1\n0 0 -\n", 0, 0, 0, 0, 0},
    {"nodes-64", HEAD_ONLY, 64, 1, 0, "UQS 1 threads 1 nodes 64 events 0 endings 1\n0 0 -\n", 0, 0, 0, 0, 0},
    {"nodes-65", HEAD_ONLY, 65, 1, 0, "refused 3 at 0\n", 0, 0, 0, 0, 0},
    {"threads-0", HEAD_ONLY, 2, 0, 0, "refused 4 at 0\n", 0, 0, 0, 0, 0},
    {"threads-9", HEAD_ONLY, 2, 9, 0, "refused 4 at 0\n", 0, 0, 0, 0, 0},
    {"events-4096", WRITE_BACKS, 2, 1, 4096, "UQS 1 threads 1 nodes 2 events 4096 endings 1\n0 0 -\n", 0, 0, 0, 0, 0},
    {"events-4097", WRITE_BACKS, 2, 1, 4097, "refused 5 at 0\n", 0, 0, 0, 0, 0},
    {"contents-16", WORN, 15, 0, 0, "UQS 1 threads 1 nodes 2 events 120 endings 32\n0 4294967295 -\n", 0, 0, 0, 0, 0},
    {"contents-17", WORN, 16, 0, 0, "refused 14 at 2\n", 0, 0, 0, 0, 0},
    {"overtaken-16", OVERTAKEN, 13, 0, 0, "UQS 1 threads 2 nodes 64 events 229 endings 16\n0 0 1 1 1 1 1 1 1 1 1 1 1 1 1\n", 0, 0, 0, 0, 0},
    {"overtaken-17", OVERTAKEN, 14, 0, 0, "refused 14 at 2\n", 0, 0, 0, 0, 0},
    /* not in the paper's list: one input for each reading that an input can tell */
    {"fourteen-at-end", WORN_WRITTEN, 16, 0, 0, "UQS 1 threads 1 nodes 2 events 129 endings 2\n0 4294967295 -\n1 4294967295 -\n", 0, 0, 0, 0, 0},
    {"last-line", ONE_EVENT, WRITE_BACK, 2, 0, "UQS 1 threads 1 nodes 2 events 1 endings 1\n0 0 -\n", 0, 0, 0, 0, 1 << CLEAN},
    {"line-beyond", ONE_EVENT, WRITE_BACK, 3, 0, "refused 10 at 0\n", 0, 0, 0, 0, 0},
    {"crash-number", ONE_EVENT, CRASH, 9, 0, "refused 13 at 0\n", 0, 0, 0, 0, 0},
    {"ten-before-thirteen", ONE_EVENT, STEP, 1, 1, "refused 10 at 0\n", 0, 0, 0, 0, 0},
    {"thirteen-before-twelve", ONE_EVENT, STEP, 0, 1, "refused 13 at 0\n", 0, 0, 0, 0, 0},
    {"nine-before-ten", ONE_EVENT, 6, 200, 1, "refused 9 at 0\n", 0, 0, 0, 0, 0},
    {"empty", NO_BYTES, 0, 0, 0, "refused 1 at 0\n", 0, 0, 0, 0, 0},
    /* request 107: the same on version 2, with the same pages; the top of 64 bits; beyond 32 bits; the order of an image's refusals */
    {"p1-wide", ONE_THREAD, 1, 0, 0, "UQS 1 threads 1 nodes 2 events 10 endings 4\n0 0 -\n1 0 -\n2 0 -\n3 0 7\n", 0, 0, 1, 0, 0},
    {"p2-wide", ONE_THREAD, 2, 0, 0, "UQS 1 threads 1 nodes 2 events 11 endings 1\n0 0 7\n", 0, 0, 1, 0, 0},
    {"p3-wide", ONE_THREAD, 3, 0, 0, "UQS 1 threads 1 nodes 2 events 16 endings 2\n0 0 7\n1 1 -\n", 11, DONE, 1, 0, 0},
    {"p4-wide", ONE_THREAD, 4, 0, 0, "UQS 1 threads 1 nodes 2 events 18 endings 1\n0 1 -\n", 0, 0, 1, 0, 0},
    {"p5-wide", ONE_THREAD, 5, 0, 0, "UQS 1 threads 1 nodes 2 events 21 endings 1\n0 1 -\n", 20, FULL, 1, 0, 0},
    {"p6-wide", TWO_THREADS, 6, 0, 0, "UQS 1 threads 2 nodes 3 events 24 endings 3\n0 0 6\n1 0 6\n2 0 6\n", 23, DONE, 1, 0, 0},
    {"p7-wide", TWO_THREADS, 7, 0, 0, "UQS 1 threads 2 nodes 3 events 25 endings 4\n0 0 6\n1 0 6\n2 0 6\n3 0 5 6\n", 0, 0, 1, 0, 0},
    {"p8-wide", HEAD_ONLY, 2, 1, 5, "UQS 1 threads 1 nodes 2 events 0 endings 2\n0 5 -\n1 5 -\n", 0, 0, 1, 0, 0},
    {"p9-wide", HEAD_ONLY, 2, 1, 0, "UQS 1 threads 1 nodes 2 events 0 endings 1\n0 0 -\n", 0, 0, 1, 0, 0},
    {"p10-wide", WORN, 1, 0, 0, "UQS 1 threads 1 nodes 2 events 8 endings 4\n0 18446744073709551615 -\n", 7, WORN_OUT, 1, 0, 0},
    {"nodes-1-wide", HEAD_ONLY, 1, 1, 0, "refused 3 at 0\n", 0, 0, 1, 0, 0},
    {"nodes-2-wide", HEAD_ONLY, 2, 8, 0, "UQS 1 threads 8 nodes 2 events 0 endings 1\n0 0 -\n", 0, 0, 1, 0, 0},
    {"nodes-64-wide", HEAD_ONLY, 64, 1, 0, "UQS 1 threads 1 nodes 64 events 0 endings 1\n0 0 -\n", 0, 0, 1, 0, 0},
    {"nodes-65-wide", HEAD_ONLY, 65, 1, 0, "refused 3 at 0\n", 0, 0, 1, 0, 0},
    {"threads-0-wide", HEAD_ONLY, 2, 0, 0, "refused 4 at 0\n", 0, 0, 1, 0, 0},
    {"threads-9-wide", HEAD_ONLY, 2, 9, 0, "refused 4 at 0\n", 0, 0, 1, 0, 0},
    {"events-4096-wide", WRITE_BACKS, 2, 1, 4096, "UQS 1 threads 1 nodes 2 events 4096 endings 1\n0 0 -\n", 0, 0, 1, 0, 0},
    {"events-4097-wide", WRITE_BACKS, 2, 1, 4097, "refused 5 at 0\n", 0, 0, 1, 0, 0},
    {"contents-16-wide", WORN, 15, 0, 0, "UQS 1 threads 1 nodes 2 events 120 endings 32\n0 18446744073709551615 -\n", 0, 0, 1, 0, 0},
    {"contents-17-wide", WORN, 16, 0, 0, "refused 14 at 2\n", 0, 0, 1, 0, 0},
    {"overtaken-16-wide", OVERTAKEN, 13, 0, 0, "UQS 1 threads 2 nodes 64 events 229 endings 16\n0 0 1 1 1 1 1 1 1 1 1 1 1 1 1\n", 0, 0, 1, 0, 0},
    {"overtaken-17-wide", OVERTAKEN, 14, 0, 0, "refused 14 at 2\n", 0, 0, 1, 0, 0},
    {"longest", WRITE_BACKS, 64, 8, 4096, "UQS 1 threads 8 nodes 64 events 4096 endings 1\n0 0 -\n", 0, 0, 0, 0, 0},
    {"longest-wide", WRITE_BACKS, 64, 8, 4096, "UQS 1 threads 8 nodes 64 events 4096 endings 1\n0 0 -\n", 0, 0, 1, 0, 0},
    {"past-32", PAST_32, 0, 0, 0, "refused 12 at 8\n", 0, 0, 0, 0, 0},
    {"past-32-wide", PAST_32, 0, 0, 0, "UQS 1 threads 1 nodes 2 events 12 endings 2\n0 4294967295 7\n1 4294967295 7\n", 11, DONE, 1, 0, 0},
    {"twelve-bytes-one-node-wide", CUT_IMAGE, 1, 12, 0, "refused 3 at 0\n", 0, 0, 1, 0, 0},
    {"twelve-bytes-two-nodes-wide", CUT_IMAGE, 2, 12, 0, "refused 1 at 0\n", 0, 0, 1, 0, 0},
    {"ten-bytes-one-node-wide", CUT_IMAGE, 1, 10, 0, "refused 3 at 0\n", 0, 0, 1, 0, 0},
    {"nine-bytes-one-node-wide", CUT_IMAGE, 1, 9, 0, "refused 1 at 0\n", 0, 0, 1, 0, 0},
    /* request 106: four enqueues wear out on nodes 1, 2, 3, 1 in rotation and on node 1 alone without; 16 on two nodes in turn; what a start counts as last */
    {"worn-four", WORN_ON, 4, 4, 0, "UQS 1 threads 1 nodes 4 events 32 endings 10\n0 4294967295 -\n", 0, 0, 0, 0, 1 << ROTATION},
    {"worn-four", WORN_ON, 4, 4, 0, "UQS 1 threads 1 nodes 4 events 32 endings 24\n0 4294967295 -\n", 0, 0, 0, 1 << ROTATION, 0},
    {"worn-two-nodes", WORN_ON, 3, 16, 0, "refused 14 at 2\n", 0, 0, 0, 0, 1 << ROTATION},
    {"worn-two-nodes", WORN_ON, 3, 16, 0, "UQS 1 threads 1 nodes 3 events 128 endings 162\n0 4294967295 -\n", 0, 0, 0, 1 << ROTATION, 0},
    {"worn-two-nodes-17", WORN_ON, 3, 31, 0, "refused 14 at 2\n", 0, 0, 0, 1 << ROTATION, 0},
    /* request 101: P1 to P10 on "UQP": the head's move is no content, the store before D6's persist is; the order of the two T */
    {"p1-desks", ONE_THREAD, 1, 0, 0, "UQS 1 threads 1 nodes 2 events 10 endings 4\n0 0 -\n1 0 -\n2 0 -\n3 0 7\n", 0, 0, 2, 1 << DESKS_TOO, 0},
    {"p2-desks", ONE_THREAD, 2, 0, 0, "UQS 1 threads 1 nodes 2 events 11 endings 1\n0 0 7\n", 0, 0, 2, 1 << DESKS_TOO, 0},
    {"p3-desks", ONE_THREAD, 3, 0, 0, "UQS 1 threads 1 nodes 2 events 16 endings 1\n0 0 7\n", 11, DONE, 2, 1 << DESKS_TOO, 0},
    {"p4-desks", ONE_THREAD, 4, 0, 0, "UQS 1 threads 1 nodes 2 events 18 endings 2\n0 0 7\n1 1 -\n", 0, 0, 2, 1 << DESKS_TOO, 0},
    {"p4-persisted-desks", ONE_THREAD, 6, 0, 0, "UQS 1 threads 1 nodes 2 events 19 endings 1\n0 1 -\n", 0, 0, 2, 1 << DESKS_TOO, 0},
    {"p5-desks", ONE_THREAD, 5, 0, 0, "UQS 1 threads 1 nodes 2 events 22 endings 1\n0 1 -\n", 21, FULL, 2, 1 << DESKS_TOO, 0},
    {"p6-desks", TWO_THREADS, 6, 0, 0, "UQS 1 threads 2 nodes 3 events 24 endings 3\n0 0 6\n1 0 6\n2 0 6\n", 23, DONE, 2, 1 << DESKS_TOO, 0},
    {"p7-desks", TWO_THREADS, 7, 0, 0, "UQS 1 threads 2 nodes 3 events 25 endings 4\n0 0 6\n1 0 6\n2 0 6\n3 0 5 6\n", 0, 0, 2, 1 << DESKS_TOO, 0},
    {"p8-desks", HEAD_ONLY, 2, 1, 5, "UQS 1 threads 1 nodes 2 events 0 endings 2\n0 5 -\n1 5 -\n", 0, 0, 2, 1 << DESKS_TOO, 0},
    {"p9-desks", HEAD_ONLY, 2, 1, 0, "UQS 1 threads 1 nodes 2 events 0 endings 1\n0 0 -\n", 0, 0, 2, 1 << DESKS_TOO, 0},
    {"p10-desks", WORN, 1, 0, 0, "UQS 1 threads 1 nodes 2 events 8 endings 4\n0 4294967295 -\n", 7, WORN_OUT, 2, 1 << DESKS_TOO, 0},
    {"two-t-desks", TWO_T, 2, 2, 0, "refused 4 at 0\n", 0, 0, 2, 1 << DESKS_TOO, 0},
    {"no-t-desks", TWO_T, 2, 0, 0, "refused 4 at 0\n", 0, 0, 2, 1 << DESKS_TOO, 0},
    {"one-node-two-t-desks", TWO_T, 1, 2, 0, "refused 3 at 0\n", 0, 0, 2, 1 << DESKS_TOO, 0},
    {"nine-bytes-desks", CUT_IMAGE, 2, 9, 0, "refused 1 at 0\n", 0, 0, 2, 1 << DESKS_TOO, 0},
    {"last-line-desks", ONE_EVENT, WRITE_BACK, 2, 0, "UQS 1 threads 1 nodes 2 events 1 endings 1\n0 0 -\n", 0, 0, 2, 1 << DESKS_TOO, 1 << CLEAN},
    {"last-line-desks", ONE_EVENT, WRITE_BACK, 2, 0, "refused 19 at 0\n", 0, 0, 2, 1 << DESKS_TOO | 1 << CLEAN, 0},
    {"p1-desks-off", ONE_THREAD, 1, 0, 0, "refused 2 at 0\n", 0, 0, 2, 0, 1 << DESKS_TOO},
    /* request 102; 4,096 events of which each has something to do, where clean write-backs were */
    {"events-4096-worn", WORN_SAME, 512, 0, 0, "UQS 1 threads 1 nodes 2 events 4096 endings 4\n0 4294967295 -\n1 4294967295 -\n2 4294967295 -\n3 4294967295 -\n", 7, WORN_OUT, 0, 0, 0},
    {"events-4096-worn-wide", WORN_SAME, 512, 0, 0, "UQS 1 threads 1 nodes 2 events 4096 endings 4\n0 18446744073709551615 -\n", 7, WORN_OUT, 1, 0, 0},
    {"events-4104-worn", WORN_SAME, 513, 0, 0, "refused 5 at 0\n", 0, 0, 0, 0, 0},
    {"last-line", ONE_EVENT, WRITE_BACK, 2, 0, "refused 19 at 0\n", 0, 0, 0, 1 << CLEAN, 0},
    {"clean-head", ONE_EVENT, WRITE_BACK, 0, 0, "refused 19 at 0\n", 0, 0, 0, 1 << CLEAN, 0},
    {"clean-not-zero", ONE_EVENT, WRITE_BACK, 0, 1, "refused 13 at 0\n", 0, 0, 0, 0, 0},
    {"beyond-not-zero", ONE_EVENT, WRITE_BACK, 3, 1, "refused 10 at 0\n", 0, 0, 0, 0, 0},
    {"came-back", CAME_BACK, 0, 0, 0, "UQS 1 threads 1 nodes 2 events 17 endings 2\n0 4294967295 -\n1 4294967295 -\n", 0, 0, 0, 0, 1 << CLEAN},
    {"came-back", CAME_BACK, 0, 0, 0, "refused 19 at 16\n", 0, 0, 0, 1 << CLEAN, 0},
    /* request 104: between a flush and its fence nothing is assured; what is persisted at the fence is the content at the flush */
    {"p2-flushed", ONE_THREAD, 7, 0, 0, "UQS 1 threads 1 nodes 2 events 11 endings 4\n0 0 -\n1 0 -\n2 0 -\n3 0 7\n", 0, 0, 0, 1 << FENCES, 0},
    {"at-its-fence", AT_FLUSH, 3, 0, 0, "UQS 1 threads 2 nodes 3 events 10 endings 3\n0 0 8 9\n1 1 9\n2 2 -\n", 0, 0, 0, 1 << FENCES, 0},
    {"content-at-flush", AT_FLUSH, 0, 0, 0, "UQS 1 threads 2 nodes 3 events 11 endings 2\n0 1 9\n1 2 -\n", 0, 0, 0, 1 << FENCES, 0},
    {"later-one-stays", AT_FLUSH, 1, 0, 0, "UQS 1 threads 2 nodes 3 events 12 endings 1\n0 2 -\n", 0, 0, 0, 1 << FENCES, 0},
    {"later-fence-stays", AT_FLUSH, 2, 0, 0, "UQS 1 threads 2 nodes 3 events 14 endings 1\n0 2 -\n", 0, 0, 0, 1 << FENCES, 0},
    {"content-at-flush-wide", AT_FLUSH, 0, 0, 0, "UQS 1 threads 2 nodes 3 events 11 endings 2\n0 1 9\n1 2 -\n", 0, 0, 1, 1 << FENCES, 0},
    {"later-one-stays-wide", AT_FLUSH, 1, 0, 0, "UQS 1 threads 2 nodes 3 events 12 endings 1\n0 2 -\n", 0, 0, 1, 1 << FENCES, 0},
    {"later-fence-stays-wide", AT_FLUSH, 2, 0, 0, "UQS 1 threads 2 nodes 3 events 14 endings 1\n0 2 -\n", 0, 0, 1, 1 << FENCES, 0},
    {"p4-flushed", ONE_THREAD, 8, 0, 0, "UQS 1 threads 1 nodes 2 events 18 endings 2\n0 0 7\n1 1 -\n", 0, 0, 0, 1 << FENCES, 0},
    {"p4-flushed-desks", ONE_THREAD, 8, 0, 0, "UQS 1 threads 1 nodes 2 events 19 endings 2\n0 0 7\n1 1 -\n", 0, 0, 2, 1 << FENCES | 1 << DESKS_TOO, 0},
    {"empty-answer", EMPTY_ANSWER, 0, 0, 0, "UQS 1 threads 1 nodes 2 events 4 endings 1\n0 0 -\n", 3, EMPTY, 0, 0, 0},
    {"empty-answer-wide", EMPTY_ANSWER, 0, 0, 0, "UQS 1 threads 1 nodes 2 events 4 endings 1\n0 0 -\n", 3, EMPTY, 1, 0, 0},
    {"empty-answer-desks", EMPTY_ANSWER, 0, 0, 0, "UQS 1 threads 1 nodes 2 events 5 endings 1\n0 0 -\n", 4, EMPTY, 2, 1 << DESKS_TOO, 0},
    /* seventeen contents at the flush, one behind the fence */
    {"overtaken-17-flushed", OVERTAKEN, 14, 3, 0, "refused 14 at 2\n", 0, 0, 0, 1 << FENCES, 0},
    {"overtaken-17-fenced", OVERTAKEN, 14, 4, 0, "UQS 1 threads 2 nodes 64 events 250 endings 1\n0 0 1 1 1 1 1 1 1 1 1 1 1 1 1 1 9\n", 0, 0, 0, 1 << FENCES, 0},
    /* request 113: the fresh machine has two endings, since the start stores queue 1 in the second dummy; P1 and P2 on both queues, with the queue byte of
       node 1 set before */
    {"p8-queues", HEAD_ONLY, 3, 1, 5, "UQS 1 threads 1 nodes 3 events 0 endings 4\n0 5 - | 5 -\n1 5 - | 5 -\n2 5 - | 5 -\n3 5 - | 5 -\n", 0, 0, 3, 1 << QUEUES_TOO, 0},
    {"p9-queues", HEAD_ONLY, 3, 1, 0, "UQS 1 threads 1 nodes 3 events 0 endings 2\n0 0 - | 0 -\n1 0 - | 0 -\n", 0, 0, 3, 1 << QUEUES_TOO, 0},
    {"p1-queues", ON_QUEUE, 0, 10, 0, "UQS 1 threads 1 nodes 3 events 11 endings 4\n0 0 - | 0 -\n1 0 - | 0 -\n2 0 - | 0 -\n3 0 7 | 0 -\n", 0, 0, 3, 1 << QUEUES_TOO, 0},
    {"p1-queue-1", ON_QUEUE, 1, 10, 0,
     "UQS 1 threads 1 nodes 3 events 11 endings 5\n0 0 - | 0 -\n1 0 - | 0 -\n2 0 - | 0 -\n3 0 - | 0 -\n4 0 - | 0 7\n", 0, 0, 3, 1 << QUEUES_TOO, 0},
    {"p2-queues", ON_QUEUE, 0, 11, 1, "UQS 1 threads 1 nodes 3 events 12 endings 1\n0 0 7 | 0 -\n", 0, 0, 3, 1 << QUEUES_TOO, 0},
    {"p2-queue-1", ON_QUEUE, 1, 11, 1, "UQS 1 threads 1 nodes 3 events 12 endings 1\n0 0 - | 0 7\n", 0, 0, 3, 1 << QUEUES_TOO, 0},
    {"p2-answer-queues", ON_QUEUE, 1, 12, 1, "UQS 1 threads 1 nodes 3 events 13 endings 1\n0 0 - | 0 7\n", 12, DONE, 3, 1 << QUEUES_TOO, 0},
    {"nodes-2-queues", HEAD_ONLY, 2, 1, 0, "refused 3 at 0\n", 0, 0, 3, 1 << QUEUES_TOO, 0},
    {"queue-byte-2", QUEUE_BYTE, 2, 0, 0, "refused 6 at 1\n", 0, 0, 3, 1 << QUEUES_TOO, 0},
    {"kind-8-queues", ONE_EVENT_OF_3, 8, 0, 0, "refused 9 at 0\n", 0, 0, 3, 1 << QUEUES_TOO, 0},
    {"kind-6-thread-1", ONE_EVENT_OF_3, BEGIN_ENQUEUE_1, 1, 0, "refused 10 at 0\n", 0, 0, 3, 1 << QUEUES_TOO, 0},
    {"kind-7-item", ONE_EVENT_OF_3, BEGIN_DEQUEUE_1, 0, 1, "refused 13 at 0\n", 0, 0, 3, 1 << QUEUES_TOO, 0},
    {"last-line-queues", ONE_EVENT_OF_3, WRITE_BACK, 5, 0, "refused 10 at 0\n", 0, 0, 3, 1 << QUEUES_TOO, 0},
    {"kind-6", ONE_EVENT, BEGIN_ENQUEUE_1, 0, 1, "refused 9 at 0\n", 0, 0, 0, 0, 0},
    {"kind-7-wide", ONE_EVENT, BEGIN_DEQUEUE_1, 0, 0, "refused 9 at 0\n", 0, 0, 1, 0, 0},
    /* request 114: item 5 was handed out, and its node is recovered with its index in the other queue */
    {"node-comes-back", COMES_BACK, 0, 0, 0,
     "UQS 1 threads 1 nodes 4 events 71 endings 5\n0 3 - | 0 -\n1 3 - | 0 -\n2 3 - | 0 -\n3 3 - | 0 -\n4 3 - | 0 8\n", 0, 0, 3, 1 << QUEUES_TOO, 1 << ROTATION},
    {"queued-behind-free", QUEUE_AT, 2, 0, 0, "UQS 1 threads 1 nodes 4 events 3 endings 2\n0 0 4\n1 0 4\n", 0, 0, 0, 0, 0},
};
/* Whether what is stated holds with the requests that are on. */
static int stated(const Sequence *s)
{
    for (u32 i = 0; i < SWITCHES; i++)
        if ((s->on & bit(i) && !on(i)) || (s->off & bit(i) && on(i)))
            return 0;
    return 1;
}

enum { SEQUENCES = sizeof sequences / sizeof sequences[0] };

/* What is stated, with the steps added to the number of events in the first line. */
static const char *with_added(const char *text)
{
    static u8 stated_page[65536];
    u64 at = 0, number = 0;
    capture_output(stated_page, sizeof stated_page - 1);
    while (text[at] && text[at] != '\n' && !(at > 7 && text[at - 1] == ' ' && text[at - 2] == 's' && text[at - 3] == 't' && text[at - 4] == 'n' && text[at - 5] == 'e'))
        put_bytes((const u8 *)text + at++, 1);
    if (text[at] >= '0' && text[at] <= '9') {
        while (text[at] >= '0' && text[at] <= '9')
            number = 10 * number + (u64)(text[at++] - '0');
        put_number(number + added);
    }
    put_text(text + at);
    stated_page[end_capture()] = 0;
    return (const char *)stated_page;
}

static int page_is(const char *stated_text)
{
    static u8 page[65536];
    const char *text = with_added(stated_text);
    capture_output(page, sizeof page);
    print_page(built, built_length);
    u64 printed = end_capture();
    u64 i = 0;
    while (text[i] && i < printed && page[i] == (u8)text[i])
        i++;
    u64 lines = 0;
    for (u64 j = 0; j < i; j++)
        lines += page[j] == '\n';
    return text[i] == 0 && i > 0 && (i == printed || lines <= 2); /* long pages are stated by their first two lines */
}

static int reply_is(u32 event, u32 wanted)
{
    Schedule s;
    Reply reply = {NOTHING, 0, NO_LINE, 0};
    if (event == 0)
        return 1;
    event += added; /* all of them come before the answer that is stated */
    if (read_schedule(built, built_length, &s).number != TAKEN)
        return 0;
    bench_start(&the_bench, &s);
    for (u32 i = 0; i <= event && i < s.event_count; i++) {
        Event e = event_at(&s, i);
        if (bench_event(&the_bench, &e, i, &reply).number != TAKEN || (i < event && reply.number == wanted))
            return 0; /* the answer must come at that event and not before */
    }
    return reply.number == wanted;
}

/* One line for each sequence that fails; gives their number. */
int check_sequences(void)
{
    int failed = 0;
    for (u32 i = 0; i < SEQUENCES; i++) {
        if (!stated(&sequences[i]))
            continue;
        build(&sequences[i]);
        int good = page_is(sequences[i].page) && reply_is(sequences[i].event, sequences[i].reply);
        put_text(good ? "ok " : "FAILED ");
        put_text(sequences[i].name);
        put_text("\n");
        failed += !good;
    }
    return failed;
}

int print_sequence(const char *name)
{
    for (u32 i = 0; i < SEQUENCES; i++)
        if (same_text(name, sequences[i].name)) {
            build(&sequences[i]);
            put_bytes(built, built_length);
            return 0;
        }
    return 2;
}

/* The sequences that are stated with the requests that are on. */
int print_sequence_names(void)
{
    for (u32 i = 0; i < SEQUENCES; i++)
        if (stated(&sequences[i])) {
            put_text(sequences[i].name);
            put_text("\n");
        }
    return 0;
}
